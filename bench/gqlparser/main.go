// Command gqlparser prints the megabytes a second that Go's gqlparser parses of the document that its word names: the
// best single time of two seconds.
package main

import (
	"fmt"
	"os"
	"time"

	"github.com/vektah/gqlparser/v2/ast"
	"github.com/vektah/gqlparser/v2/parser"
)

func main() {
	text, err := os.ReadFile(os.Args[1])
	if err != nil {
		panic(err)
	}
	best := time.Duration(1 << 62)
	for until := time.Now().Add(2 * time.Second); time.Now().Before(until); {
		start := time.Now()
		if _, err := parser.ParseQuery(&ast.Source{Input: string(text)}); err != nil {
			panic(err)
		}
		if took := time.Since(start); took < best {
			best = took
		}
	}
	fmt.Printf("%.2f\n", float64(len(text))/best.Seconds()/1e6)
}
