// SPDX-License-Identifier: Apache-2.0

package statement

import (
	"strings"
	"testing"
)

const root = "f5d7fa76ae94b01bee4e95b0ccc514710956389b2bc39eeef16634ae3be0ea87"

// A statement as the tool writes it; a date that is empty is left out.
func text(version, made, notAfter string) []byte {
	lines := "the root of a grant store\nversion " + version + "\nroot " + root + "\nmade " + made + "\n"
	if notAfter != "" {
		lines += "not-after " + notAfter + "\n"
	}
	return []byte(lines)
}

func read(t *testing.T, version, made, notAfter string) *Statement {
	t.Helper()
	statement, err := Read(text(version, made, notAfter))
	if err != nil {
		t.Fatal(err)
	}
	return statement
}

func TestRead(t *testing.T) {
	whole := strings.Replace(string(text("2", "2026-05-10T10:30:00Z", "2026-06-10T23:59:59Z")), "\nmade", "\nbits 12\npublished 2026-05-10T10:00:00Z\nmade", 1)
	got, err := Read([]byte(whole))
	if err != nil || got.Version != 2 || got.Root[0] != 0xf5 || got.Root[31] != 0x87 || got.Bits != 12 || got.Published != 1778407200 || got.Made != 1778409000 || got.NotAfter != 1781135999 {
		t.Errorf("%+v, %v", got, err)
	}
	if got = read(t, "0", "0000-02-29T00:00:00Z", ""); got.Bits != NoBits || got.Published != NoDate || got.Made != -62162121600 || got.NotAfter != NoDate {
		t.Errorf("%+v", got)
	}
	for _, other := range []string{"", whole + "\n", whole[1:], strings.Replace(whole, "2026-06-10", "2026-06-31", 1), strings.Replace(whole, "version 2", "version 02", 1), strings.Replace(whole, "version 2", "version 4294967296", 1), strings.Replace(whole, "\n", "\r\n", 1)} {
		if got, err := Read([]byte(other)); got != nil || err != ErrForm {
			t.Errorf("%q is read", other)
		}
	}
}

// The composer's editor: a list, a newer one, the old one again; and no clock that is set back makes a list fresh again.
func TestSeen(t *testing.T) {
	old, fresh := read(t, "2", "2026-05-04T09:00:00Z", "2026-05-06T09:00:00Z"), read(t, "3", "2026-05-05T09:00:00Z", "2026-05-07T09:00:00Z")
	another, undated := *fresh, read(t, "4", "2026-05-05T09:00:00Z", "")
	another.Root[0]++
	var composer, traveller Seen
	for i, it := range []struct {
		editor    *Seen
		statement *Statement
		now       int64
		wanted    Verdict
	}{
		{&composer, old, old.Made, Fresh}, {&composer, fresh, fresh.Made, Fresh}, {&composer, old, fresh.Made, Older}, {&composer, &another, fresh.Made, OtherRoot}, {&composer, undated, fresh.Made, Undated},
		{&traveller, old, old.NotAfter, Fresh}, {&traveller, old, old.NotAfter + 1, Past}, {&traveller, old, 0, Past}, {&traveller, fresh, 0, Fresh},
	} {
		if got := it.editor.Take(it.statement, it.now); got != it.wanted {
			t.Errorf("%d: %v where %v was wanted", i, got, it.wanted)
		}
	}
	if composer.Version != 3 || composer.Root != fresh.Root || composer.Time != fresh.Made || Verdict(0).String() == Fresh.String() {
		t.Errorf("it keeps %+v", composer)
	}
}
