package archive

import (
	"bufio"
	"bytes"
	"fmt"
	"io"
	"strconv"
	"strings"

	"ordup.dev/node/internal/script"
)

// header begins the first line of an entry in an archive.
const header = "# entry "

// Read gives the entries of an archive and their numbers to a function, one after another. An archive has nothing but its entries, each
// with the lines of ordup that follow from it: so what a reader of the comments sees is what `ordup run` runs. That numbers follow one
// another is for the function to look at.
func Read(from io.Reader, take func(int64, *script.Entry) error) error {
	lines, text := bufio.NewReaderSize(from, 1<<16), []byte{}
	for number := 1; ; number++ {
		line, err := lines.ReadBytes('\n')
		isEnd := err == io.EOF
		if err != nil && !isEnd {
			return err
		}
		if (isEnd || bytes.HasPrefix(line, []byte(header))) && len(text) > 0 {
			at, entry, err := parse(text)
			if err != nil {
				return fmt.Errorf("before line %d: %w", number, err)
			}
			if err = take(at, entry); err != nil {
				return err
			}
			text = text[:0]
		}
		text = append(text, line...)
		if isEnd {
			if len(line) > 0 {
				return fmt.Errorf("line %d is not whole", number)
			}
			return nil
		}
		if len(text) > mostText {
			return fmt.Errorf("an entry before line %d has more than %d bytes", number, mostText)
		}
	}
}

// mostText is how many bytes an entry may have with the lines of ordup that follow from it.
const mostText = 256 << 20

// parse reads an entry and its number, as an archive has them.
func parse(text []byte) (int64, *script.Entry, error) {
	first, rest, _ := strings.Cut(string(text), "\n")
	number, err := strconv.ParseInt(strings.TrimPrefix(first, header), 10, 64)
	if err != nil {
		return 0, nil, fmt.Errorf("%.60q does not begin an entry", first)
	}
	var comments strings.Builder
	for _, line := range strings.SplitAfter(rest, "\n") {
		if strings.HasPrefix(line, "# ") {
			comments.WriteString(line[2:])
		}
	}
	entry, err := script.Parse([]byte(comments.String()))
	if err == nil && !bytes.Equal(entry.AppendArchive(nil, number), text) {
		err = fmt.Errorf("the entry %d has other lines of ordup than follow from it", number)
	}
	return number, entry, err
}
