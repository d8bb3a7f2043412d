// SPDX-License-Identifier: Apache-2.0

// Command grants-verify says what proofs show, in the tool's words and with its statuses; of several keys a line each, and the status of the first refusal, else 1 where one is absent.
package main

import (
	"encoding/hex"
	"errors"
	"flag"
	"fmt"
	"os"

	"grants"
)

const usage = `usage: grants-verify [--pocket] ROOT KEY PROOF-FILE
       grants-verify --bits BITS ROOT KEY PROOF-FILE     a key of a shelf
       grants-verify ROOT KEY KEY .. PROOFS-FILE         proofs one after the other, in the keys' order
       grants-verify --ics23 ROOT MESSAGE-FILE           an ICS 23 message
`

func wrong(err error) {
	fmt.Fprintln(os.Stderr, err)
	os.Exit(2)
}

// What one proof shows as a line, and its status.
func told(value []byte, err error) (string, int) {
	var refused grants.Refused
	switch {
	case errors.As(err, &refused):
		return refused.Error(), 10 + int(refused)
	case value == nil:
		return "absent", 1
	default:
		return "present " + hex.EncodeToString(value), 0
	}
}

func say(value []byte, err error) {
	line, status := told(value, err)
	fmt.Println(line)
	os.Exit(status)
}

func sayMany(root []byte, keys [][]byte, proofs []byte) {
	answers, err := grants.VerifyMany(root, keys, proofs)
	if err != nil {
		say(nil, err)
	}
	all := 0
	for _, answer := range answers {
		line, status := told(answer.Value, answer.Err)
		fmt.Println(line)
		if all < 10 && status > all {
			all = status
		}
	}
	os.Exit(all)
}

func main() {
	flag.Usage = func() { fmt.Fprint(os.Stderr, usage) }
	bits := flag.Int("bits", -1, "")
	pocket := flag.Bool("pocket", false, "")
	message := flag.Bool("ics23", false, "")
	flag.Parse()
	words := flag.Args()
	least := 3
	if *message {
		least = 2
	}
	if len(words) < least || len(words) > least && (*message || *pocket || *bits >= 0) {
		flag.Usage()
		os.Exit(2)
	}
	given, err := os.ReadFile(words[len(words)-1])
	if err != nil {
		wrong(err)
	}
	var digits [][]byte
	for _, word := range words[:len(words)-1] {
		bytes, err := hex.DecodeString(word)
		if err != nil {
			wrong(err)
		}
		digits = append(digits, bytes)
	}
	root, keys := digits[0], digits[1:]
	switch {
	case *message:
		read, err := grants.ReadMessage(given)
		if err != nil {
			say(nil, err)
		}
		say(read.Verify(root))
	case *bits >= 0:
		say(grants.ShelfVerify(root, uint32(*bits), keys[0], given))
	case *pocket:
		say(grants.PocketVerify(root, keys[0], given))
	case len(keys) == 1:
		say(grants.Verify(root, keys[0], given))
	default:
		sayMany(root, keys, given)
	}
}
