// SPDX-License-Identifier: Apache-2.0

// Package grants checks proofs of the grant store from Go, by cgo over the proved library. The packed module (docs/RELEASE.md) has the library inside; from the top of a
// checkout, after `make lib`:
//
//	cd go && CGO_CFLAGS=-I$PWD/../include CGO_LDFLAGS=$PWD/../target/native/libverify.a go build ./cmd/grants-verify
//
// The root must come from who signs it, the proof may come from anybody; docs/EDITOR.md says what an editor keeps so that a stale root is refused, and grants/statement does it. Where the signed root is 32
// zero bytes nothing is granted, and no proof is needed.
package grants

/*
#include "grants.h"
*/
import "C"

import (
	"encoding/binary"
	"fmt"
	"unsafe"
)

const (
	keySize      = 32
	foundSize    = 33
	answerSize   = 1 + foundSize
	longestProof = 17_080
	rawParts     = 5
)

// MostKeys is the most that VerifyMany takes at once.
const MostKeys = 256

// A pointer to the bytes, which is never null, also where there are none.
func lent(bytes []byte) (*C.uint8_t, C.size_t) {
	length := C.size_t(len(bytes))
	if len(bytes) == 0 {
		bytes = make([]byte, 1)
	}
	return (*C.uint8_t)(unsafe.Pointer(&bytes[0])), length
}

// Refused is a number of refusal: the proof shows nothing.
type Refused uint32

func (number Refused) Error() string { return fmt.Sprintf("refused with %d", uint32(number)) }

// What a check left in found: the value, or nil for 'absent'.
func shown(number C.uint32_t, found []byte) ([]byte, error) {
	if number != 0 {
		return nil, Refused(number)
	}
	if found[0] == 0 {
		return nil, nil
	}
	return found[1:], nil
}

// Verify says what a proof shows of a key against a root: its value, or nil for 'absent'. Refused: 12, 10, 11.
func Verify(root, key, proof []byte) ([]byte, error) {
	found := make([]byte, foundSize)
	r, rn := lent(root)
	k, kn := lent(key)
	p, pn := lent(proof)
	f, _ := lent(found)
	return shown(C.grants_verify(r, rn, k, kn, p, pn, f), found)
}

// PocketVerify is Verify for proofs of at most 32 steps for each leaf shown. Refused: 12, 10, 19, 11.
func PocketVerify(root, key, proof []byte) ([]byte, error) {
	found := make([]byte, foundSize)
	r, rn := lent(root)
	k, kn := lent(key)
	p, pn := lent(proof)
	f, _ := lent(found)
	return shown(C.grants_pocket_verify(r, rn, k, kn, p, pn, f), found)
}

// ShelfVerify is Verify for a key of a shelf of so many bits, against its list's root. Refused: 12, 21, 10, 11.
func ShelfVerify(root []byte, bits uint32, key, proof []byte) ([]byte, error) {
	found := make([]byte, foundSize)
	r, rn := lent(root)
	k, kn := lent(key)
	p, pn := lent(proof)
	f, _ := lent(found)
	return shown(C.grants_shelf_verify(r, rn, C.uint32_t(bits), k, kn, p, pn, f), found)
}

// Answer is what the proof of one key of a row shows: what Verify would return for it.
type Answer struct {
	Value []byte
	Err   error
}

// VerifyMany says what Verify says of each of up to MostKeys keys, in less time. The proofs stand one after the other in the keys' order, as the tool's `prove --keys` and
// grants_palette give them. The error is that of the row, and then no key has an answer; without one, look at each answer's own. Refused: 12, 10.
func VerifyMany(root []byte, keys [][]byte, proofs []byte) ([]Answer, error) {
	list := make([]byte, 0, keySize*len(keys))
	for _, key := range keys {
		if len(key) != keySize {
			return nil, Refused(12)
		}
		list = append(list, key...)
	}
	told := make([]byte, answerSize*len(keys))
	r, rn := lent(root)
	k, kn := lent(list)
	p, pn := lent(proofs)
	t, tn := lent(told)
	if number := C.grants_verify_many(r, rn, k, kn, p, pn, t, tn); number != 0 {
		return nil, Refused(number)
	}
	answers := make([]Answer, len(keys))
	for i := range answers {
		one := told[answerSize*i : answerSize*(i+1)]
		answers[i].Value, answers[i].Err = shown(C.uint32_t(one[0]), one[1:])
	}
	return answers, nil
}

// RawLeaf is what was hashed for a leaf that a proof shows.
type RawLeaf struct {
	Key, Value []byte
}

// Message is an ICS 23 message that was read: our own proof, the raw key asked for, and raw key and value of each leaf shown, the left one first. The raw parts are parts of the message.
type Message struct {
	Proof  []byte
	Asked  []byte
	Leaves []RawLeaf
}

// ReadMessage reads an ICS 23 message in the one encoding that grants_ics23_write writes. What it shows, Verify says. Refused: 10.
func ReadMessage(message []byte) (*Message, error) {
	room, told := make([]byte, longestProof), make([]byte, 4+8*rawParts)
	m, mn := lent(message)
	p, pn := lent(room)
	t, _ := lent(told)
	if number := C.grants_ics23_read(m, mn, p, pn, t); number != 0 {
		return nil, Refused(number)
	}
	word := func(i int) uint32 { return binary.LittleEndian.Uint32(told[4*i:]) }
	part := func(i int) []byte {
		from, length := word(1+2*i), word(2+2*i)
		return message[from : from+length : from+length]
	}
	read := Message{Proof: room[:word(0)], Asked: part(0)}
	for i := 1; i < rawParts; i += 2 {
		if leaf := (RawLeaf{part(i), part(i + 1)}); len(leaf.Key) > 0 {
			read.Leaves = append(read.Leaves, leaf)
		}
	}
	return &read, nil
}

// Verify says what the message's proof shows of the key asked for, against a root. Refused: 12, 11.
func (message *Message) Verify(root []byte) ([]byte, error) {
	return Verify(root, Sha256(message.Asked), message.Proof)
}

// Sha256 is the library's own.
func Sha256(bytes []byte) []byte {
	digest := make([]byte, 32)
	b, n := lent(bytes)
	d, _ := lent(digest)
	C.grants_sha256(b, n, d)
	return digest
}
