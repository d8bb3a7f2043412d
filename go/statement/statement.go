// SPDX-License-Identifier: Apache-2.0

// Package statement reads what the publisher signs, and has what an editor keeps so that a stale list is refused (docs/EDITOR.md). Nothing here needs the library, or cgo.
package statement

import (
	"encoding/hex"
	"errors"
	"math"
	"regexp"
	"strconv"
	"time"
)

// NoDate stands where a statement has no such date.
const NoDate int64 = math.MinInt64

// NoBits stands where a statement is that of a store.
const NoBits = -1

// Statement is a root with its version and dates, as it is signed (docs/SIGNING.md). Dates are seconds since 1970. Of a shelf, Bits says how many bits of a key name its part,
// for ShelfVerify.
type Statement struct {
	Version   uint32
	Root      [32]byte
	Bits      int
	Published int64
	Made      int64
	NotAfter  int64
}

// ErrForm is what Read says of all other bytes.
var ErrForm = errors.New("this is no statement that `grants root --out` writes")

var form = regexp.MustCompile(`\Athe root of a grant store\nversion (0|[1-9][0-9]{0,9})\nroot ([0-9a-f]{64})\n(?:bits ([0-9]|1[0-2])\n)?` +
	`(?:published ([0-9TZ:-]{20})\n)?made ([0-9TZ:-]{20})\n(?:not-after ([0-9TZ:-]{20})\n)?\z`)

// Seconds since 1970 of a date such as 2026-05-10T10:00:00Z, NoDate where none is given; an error for a day or a time that there isn't.
func seconds(text []byte) (int64, error) {
	if text == nil {
		return NoDate, nil
	}
	const layout = "2006-01-02T15:04:05Z"
	at, err := time.Parse(layout, string(text))
	if err != nil || at.Format(layout) != string(text) {
		return NoDate, ErrForm
	}
	return at.Unix(), nil
}

// Read takes the very lines that `grants root --out` writes, and no others. Check the signature first, over the same bytes.
func Read(text []byte) (*Statement, error) {
	read := form.FindSubmatch(text)
	if read == nil {
		return nil, ErrForm
	}
	version, err := strconv.ParseUint(string(read[1]), 10, 32)
	if err != nil {
		return nil, ErrForm
	}
	statement := Statement{Version: uint32(version), Bits: NoBits}
	hex.Decode(statement.Root[:], read[2])
	if read[3] != nil {
		statement.Bits, _ = strconv.Atoi(string(read[3]))
	}
	for i, date := range []*int64{&statement.Published, &statement.Made, &statement.NotAfter} {
		if *date, err = seconds(read[4+i]); err != nil {
			return nil, err
		}
	}
	return &statement, nil
}

// Verdict is what an editor makes of a statement whose signature holds. Only Fresh is to be believed.
type Verdict int

const (
	Fresh Verdict = iota + 1
	Older
	OtherRoot
	Undated
	Past
)

func (verdict Verdict) String() string {
	switch verdict {
	case Fresh:
		return "fresh"
	case Older:
		return "older than the version seen before"
	case OtherRoot:
		return "another root for the version seen before"
	case Undated:
		return "without a date"
	case Past:
		return "past its date"
	}
	return "no verdict"
}

// Seen is what an editor keeps of a list, from one start to the next: the highest version, its root, and the latest time that it knows to have come. An editor that has seen
// nothing has the zero value.
type Seen struct {
	Version uint32
	Root    [32]byte
	Time    int64
}

// The time that counts is the latest of the clock, of what was seen, and of the statement's own 'made'.
func (seen Seen) time(statement *Statement, now int64) int64 {
	for _, known := range []int64{seen.Time, statement.Made} {
		if known > now {
			now = known
		}
	}
	return now
}

// Judge says whether to believe a signed statement at a time of the clock, in seconds since 1970.
func (seen Seen) Judge(statement *Statement, now int64) Verdict {
	switch {
	case statement.Version < seen.Version:
		return Older
	case statement.Version == seen.Version && statement.Root != seen.Root:
		return OtherRoot
	case statement.NotAfter == NoDate:
		return Undated
	case seen.time(statement, now) > statement.NotAfter:
		return Past
	}
	return Fresh
}

// Take is Judge, and keeps what the statement says where it is fresh. Of one that is past, it keeps that its date has come: no clock that is set back makes it fresh again.
func (seen *Seen) Take(statement *Statement, now int64) Verdict {
	verdict := seen.Judge(statement, now)
	switch {
	case verdict == Fresh:
		*seen = Seen{statement.Version, statement.Root, seen.time(statement, now)}
	case verdict == Past && seen.Time <= statement.NotAfter:
		seen.Time = statement.NotAfter + 1
	}
	return verdict
}
