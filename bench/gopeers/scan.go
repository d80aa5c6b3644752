package main

import (
	"bufio"
	"fmt"
	"go/scanner"
	"go/token"
	"os"
)

// A finder scans files with go/scanner, and prints a line for each identifier with a name. Last it tells
// on standard error how many files it read, and those of them with errors, one a line.
type finder struct {
	name   string
	out    *bufio.Writer
	files  int
	faulty []string
}

func (f *finder) take(path string, source []byte) {
	f.files++
	files := token.NewFileSet()
	file := files.AddFile(path, files.Base(), len(source))
	var s scanner.Scanner
	s.Init(file, source, func(token.Position, string) {}, scanner.ScanComments)
	for {
		pos, tok, text := s.Scan()
		if tok == token.EOF {
			break
		}
		if tok == token.IDENT && text == f.name {
			place := file.PositionFor(pos, false)
			fmt.Fprintf(f.out, "%s:%d:%d\n", path, place.Line, place.Column)
		}
	}
	if s.ErrorCount > 0 {
		f.faulty = append(f.faulty, path)
	}
}

func (f *finder) end() {
	fmt.Fprintf(os.Stderr, "%d files, %d with errors\n", f.files, len(f.faulty))
	for _, path := range f.faulty {
		fmt.Fprintln(os.Stderr, path)
	}
}
