// Reads a file of Go source by Go's own go/scanner and go/parser, five times each, and prints the least milliseconds of each:
// `scan N parse N`. Run by the scripts beside it where Go is installed.
package main

import (
	"fmt"
	"go/parser"
	"go/scanner"
	"go/token"
	"os"
	"time"
)

func scan(text []byte) {
	var s scanner.Scanner
	files := token.NewFileSet()
	s.Init(files.AddFile("", files.Base(), len(text)), text, nil, scanner.ScanComments)
	for {
		if _, kind, _ := s.Scan(); kind == token.EOF {
			return
		}
	}
}

func parse(text []byte) {
	if _, err := parser.ParseFile(token.NewFileSet(), "", text, parser.ParseComments|parser.SkipObjectResolution); err != nil {
		fmt.Fprintln(os.Stderr, err)
		os.Exit(1)
	}
}

func least(read func([]byte), text []byte) int64 {
	best := int64(-1)
	for i := 0; i < 5; i++ {
		start := time.Now()
		read(text)
		if spent := time.Since(start).Milliseconds(); best < 0 || spent < best {
			best = spent
		}
	}
	return best
}

func main() {
	text, err := os.ReadFile(os.Args[1])
	if err != nil {
		fmt.Fprintln(os.Stderr, err)
		os.Exit(1)
	}
	fmt.Printf("scan %d parse %d\n", least(scan, text), least(parse, text))
}
