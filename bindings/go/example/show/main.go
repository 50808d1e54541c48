// Show prints a message from standard input.
package main

import (
	"fmt"
	"io"
	"os"
	"strings"
	"unicode"

	"kmipttlv"
)

func main() {
	message, err := io.ReadAll(os.Stdin)
	if err == nil {
		err = kmipttlv.Check(message)
	}
	text := ""
	if err == nil {
		text, err = kmipttlv.ToText(message, false, kmipttlv.UsualLimit(len(message)))
	}
	if err != nil {
		fmt.Fprintln(os.Stderr, err)
		os.Exit(1)
	}
	// control characters in a text would reach the terminal
	fmt.Print(strings.Map(func(it rune) rune {
		if unicode.IsControl(it) && it != '\n' {
			return '?'
		}
		return it
	}, text))
}
