// Lines 'NOW HEX' from standard input, each a statement that comes at a time: what is read of it, and what an editor makes of it. An empty line is another editor.
package main

import (
	"bufio"
	"encoding/hex"
	"fmt"
	"os"
	"strconv"
	"strings"

	"grants/statement"
)

func date(time int64) string {
	if time == statement.NoDate {
		return "none"
	}
	return strconv.FormatInt(time, 10)
}

func bits(count int) string {
	if count == statement.NoBits {
		return "none"
	}
	return strconv.Itoa(count)
}

func main() {
	given := bufio.NewReader(os.Stdin)
	var seen statement.Seen
	for {
		line, err := given.ReadString('\n')
		if err != nil {
			return
		}
		words := strings.Split(strings.TrimSuffix(line, "\n"), " ")
		if len(words) < 2 {
			seen = statement.Seen{}
			fmt.Println()
			continue
		}
		now, err := strconv.ParseInt(words[0], 10, 64)
		if err != nil {
			panic(err)
		}
		text, err := hex.DecodeString(words[1])
		if err != nil {
			panic(err)
		}
		read, err := statement.Read(text)
		if err != nil {
			fmt.Println("-")
			continue
		}
		verdict := seen.Take(read, now)
		fmt.Printf("%d %x %s %s %d %s: %v, %d %d\n", read.Version, read.Root, bits(read.Bits), date(read.Published), read.Made, date(read.NotAfter), verdict, seen.Version, seen.Time)
	}
}
