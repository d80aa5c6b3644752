package main

import (
	"bufio"
	"fmt"
	"go/parser"
	"go/token"
	"strings"
)

// A reader parses files with go/parser, with their comments. Where it lists, it prints a line for each
// file: its path, the name of its package, and the first error, or "ok", with tabs between.
type reader struct {
	lists bool
	out   *bufio.Writer
}

func (r *reader) take(path string, source []byte) {
	file, err := parser.ParseFile(token.NewFileSet(), path, source, parser.ParseComments)
	if !r.lists {
		return
	}
	name, told := "", "ok"
	if file != nil && file.Name != nil {
		name = file.Name.Name
	}
	if err != nil {
		told = strings.ReplaceAll(err.Error(), "\n", " ")
	}
	fmt.Fprintf(r.out, "%s\t%s\t%s\n", path, name, told)
}

func (r *reader) end() {}
