// SPDX-License-Identifier: Apache-2.0

package grants

import (
	"bytes"
	"encoding/binary"
	"errors"
	"testing"
)

func bytesOf(b byte) []byte { return bytes.Repeat([]byte{b}, 32) }

func node(kind byte, left, right []byte) []byte {
	return Sha256(append(append([]byte{kind}, left...), right...))
}

// A presence proof of so many steps, with the root that it leads to: the siblings stand left and right in turn.
func path(key, value []byte, steps int) (root, proof []byte) {
	proof = make([]byte, 8, 72+33*steps)
	binary.LittleEndian.PutUint32(proof, uint32(72+33*steps))
	proof[4] = 16
	binary.LittleEndian.PutUint16(proof[6:], uint16(steps))
	proof = append(append(proof, key...), value...)
	root = node(1, key, value)
	for i := 0; i < steps; i++ {
		side, sibling := byte(i%2), bytesOf(byte(i+1))
		proof = append(append(proof, side), sibling...)
		if side == 0 {
			root = node(0, root, sibling)
		} else {
			root = node(0, sibling, root)
		}
	}
	return root, proof
}

// What a call gave must be this value, or this refusal where it is above 0.
func want(t *testing.T, name string, value []byte, err error, wanted []byte, number Refused) {
	t.Helper()
	var refused Refused
	errors.As(err, &refused)
	if refused != number || number == 0 && err != nil || !bytes.Equal(value, wanted) || (value == nil) != (wanted == nil) {
		t.Errorf("%s: %x, %v", name, value, err)
	}
}

func TestVerify(t *testing.T) {
	key, value := bytesOf(7), bytesOf(9)
	for _, steps := range []int{0, 1, 20, 256} {
		root, proof := path(key, value, steps)
		got, err := Verify(root, key, proof)
		want(t, "a true proof", got, err, value, 0)
		got, err = Verify(root, bytesOf(8), proof)
		want(t, "another key", got, err, nil, 11)
		got, err = Verify(root[:31], key, proof)
		want(t, "a short root", got, err, nil, 12)
		got, err = Verify(root, nil, proof)
		want(t, "no key", got, err, nil, 12)
		got, err = Verify(root, key, append(proof, 0))
		want(t, "a byte over", got, err, nil, 10)
		got, err = Verify(root, key, nil)
		want(t, "no bytes", got, err, nil, 10)
	}
}

func TestPocketVerify(t *testing.T) {
	key, value := bytesOf(7), bytesOf(9)
	for steps, number := range map[int]Refused{0: 0, 32: 0, 33: 19} {
		root, proof := path(key, value, steps)
		shown := value
		if number != 0 {
			shown = nil
		}
		got, err := PocketVerify(root, key, proof)
		want(t, "the pocket profile", got, err, shown, number)
	}
}

// One part, whose bits are the first three of the key.
func TestShelfVerify(t *testing.T) {
	key, value, partKey := bytesOf(0xa7), bytesOf(9), make([]byte, 32)
	partKey[0] = 0xa0
	part, second := path(key, value, 5)
	root, first := path(partKey, part, 3)
	proof := append(append([]byte{}, first...), second...)
	got, err := ShelfVerify(root, 3, key, proof)
	want(t, "a key of a shelf", got, err, value, 0)
	got, err = ShelfVerify(root, 13, key, proof)
	want(t, "thirteen bits", got, err, nil, 21)
	got, err = ShelfVerify(root, 5, key, proof)
	want(t, "other bits, the same part", got, err, value, 0)
	got, err = ShelfVerify(root, 6, key, proof)
	want(t, "other bits, another part", got, err, nil, 11)
	got, err = ShelfVerify(root, 3, key, first)
	want(t, "the list's record alone", got, err, nil, 10)
	got, err = Verify(root, key, proof)
	want(t, "a shelf's proof for one store", got, err, nil, 10)
	got, err = ShelfVerify(part, 3, key, proof)
	want(t, "the part's root", got, err, nil, 11)
}

// Rows of no proof to all that one call takes, each answer as by itself.
func TestVerifyMany(t *testing.T) {
	root, proof := path(bytesOf(7), bytesOf(9), 20)
	spoilt := append([]byte{}, proof...)
	spoilt[100] ^= 1
	off := append([]byte{}, proof...)
	off[4] = 15
	for _, n := range []int{0, 1, 9, MostKeys} {
		var keys [][]byte
		var row []byte
		for i := 0; i < n; i++ {
			keys, row = append(keys, bytesOf(7)), append(row, [][]byte{proof, spoilt, off}[i%3]...)
		}
		answers, err := VerifyMany(root, keys, row)
		if err != nil || len(answers) != n {
			t.Fatalf("a row of %d: %d answers, %v", n, len(answers), err)
		}
		for i, answer := range answers {
			value, err := Verify(root, keys[i], [][]byte{proof, spoilt, off}[i%3])
			var number Refused
			errors.As(err, &number)
			want(t, "a key of a row", answer.Value, answer.Err, value, number)
		}
		if n > 0 && (answers[0].Err != nil || !bytes.Equal(answers[0].Value, bytesOf(9))) {
			t.Errorf("a true proof in a row: %v", answers[0])
		}
		for what, number := range map[string]Refused{"a byte over": 10, "a proof missing": 10, "a short root": 12, "a short key": 12} {
			given := [][]byte{root, row}
			list := keys
			switch {
			case what == "a byte over":
				given[1] = append(append([]byte{}, row...), 0)
			case what == "a short root":
				given[0] = root[1:]
			case n == 0:
				continue
			case what == "a proof missing":
				given[1] = row[:len(row)-len(proof)]
			default:
				list = append([][]byte{bytesOf(7)[1:]}, keys[1:]...)
			}
			_, err := VerifyMany(given[0], list, given[1])
			want(t, what, nil, err, nil, number)
		}
	}
	many := make([][]byte, MostKeys+1)
	for i := range many {
		many[i] = bytesOf(7)
	}
	_, err := VerifyMany(root, many, bytes.Repeat(proof, len(many)))
	want(t, "a key too many", nil, err, nil, 12)
}

// A field of protobuf: its tag, its length below 128, its bytes.
func field(number int, data ...byte) []byte {
	return append([]byte{byte(8*number + 2), byte(len(data))}, data...)
}

// A message of one leaf with no step, by hand (docs/FORMAT.md): CommitmentProof { exist { key, value, leaf { hash 1, prehash_key 1, prehash_value 1, prefix 1 } } }.
func TestReadMessage(t *testing.T) {
	raw, worth := []byte("viola"), []byte("may write")
	leaf := field(3, append([]byte{8, 1, 16, 1, 24, 1}, field(5, 1)...)...)
	message := field(1, append(append(field(1, raw...), field(2, worth...)...), leaf...)...)
	root, proof := path(Sha256(raw), Sha256(worth), 0)
	read, err := ReadMessage(message)
	if err != nil {
		t.Fatal(err)
	}
	if !bytes.Equal(read.Proof, proof) || !bytes.Equal(read.Asked, raw) || len(read.Leaves) != 1 {
		t.Errorf("read %+v", read)
	} else if !bytes.Equal(read.Leaves[0].Key, raw) || !bytes.Equal(read.Leaves[0].Value, worth) {
		t.Errorf("its leaf %q", read.Leaves[0])
	}
	value, err := read.Verify(root)
	want(t, "the message's proof", value, err, Sha256(worth), 0)
	value, err = read.Verify(bytesOf(1))
	want(t, "another root", value, err, nil, 11)
	for _, other := range [][]byte{nil, append(append([]byte{}, message...), 0), message[:len(message)-1]} {
		_, err := ReadMessage(other)
		want(t, "another encoding", nil, err, nil, 10)
	}
}

func TestSha256(t *testing.T) {
	if got := Sha256([]byte("abc")); got[0] != 0xba || got[31] != 0xad {
		t.Errorf("SHA-256 of abc: %x", got)
	}
	if got := Sha256(nil); got[0] != 0xe3 || got[31] != 0x55 {
		t.Errorf("SHA-256 of nothing: %x", got)
	}
}
