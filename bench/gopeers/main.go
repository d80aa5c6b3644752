// Command gopeers does with Go's own packages what godoc does, for the benchmarks:
//
//	gopeers scan ROOT NAME [built]
//	gopeers parse ROOT [built] [list]
//
// It takes the files that godoc takes: those that end in .go and have at most 4,194,304 bytes, where no
// segment of the path begins with "." or "_" and no folder is named vendor or testdata. With "built" it takes
// those of them alone that are built for the configuration that godoc has where no option says otherwise.
package main

import (
	"bufio"
	"fmt"
	"go/build"
	"io/fs"
	"os"
	"path/filepath"
	"strings"
)

const (
	mostBytes  = 4194304
	minorOfGo  = 23
	onlyBuilt  = "built"
	listsFiles = "list"
)

// A peer takes the files of a tree one after another, by their paths below its root.
type peer interface {
	take(path string, source []byte)
	end()
}

func isLeftOut(entry fs.DirEntry) bool {
	name := entry.Name()
	if strings.HasPrefix(name, ".") || strings.HasPrefix(name, "_") {
		return true
	}
	return entry.IsDir() && (name == "vendor" || name == "testdata")
}

func configuration() build.Context {
	context := build.Context{GOOS: "linux", GOARCH: "amd64", Compiler: "gc"}
	for minor := 1; minor <= minorOfGo; minor++ {
		context.ReleaseTags = append(context.ReleaseTags, fmt.Sprintf("go1.%d", minor))
	}
	return context
}

func has(words []string, word string) bool {
	for _, w := range words {
		if w == word {
			return true
		}
	}
	return false
}

func walk(root string, built bool, p peer) {
	context := configuration()
	filepath.WalkDir(root, func(path string, entry fs.DirEntry, err error) error {
		if err != nil {
			return nil
		}
		if path != root && isLeftOut(entry) {
			if entry.IsDir() {
				return filepath.SkipDir
			}
			return nil
		}
		if entry.IsDir() || !strings.HasSuffix(path, ".go") {
			return nil
		}
		if built {
			if matches, err := context.MatchFile(filepath.Split(path)); err != nil || !matches {
				return nil
			}
		}
		source, err := os.ReadFile(path)
		if err != nil || len(source) > mostBytes {
			return nil
		}
		if below, err := filepath.Rel(root, path); err == nil {
			p.take(below, source)
		}
		return nil
	})
}

func main() {
	out := bufio.NewWriter(os.Stdout)
	defer out.Flush()
	more := os.Args[3:]
	var p peer
	if os.Args[1] == "scan" {
		p, more = &finder{name: more[0], out: out}, more[1:]
	} else {
		p = &reader{lists: has(more, listsFiles), out: out}
	}
	walk(os.Args[2], has(more, onlyBuilt), p)
	p.end()
}
