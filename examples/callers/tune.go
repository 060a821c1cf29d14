// tune LIMIT < PROFILE: the sheet of the best table, by cgo.
// PKG_CONFIG_PATH=DIR/lib/pkgconfig go run tune.go 8 < app.profile, where DIR is that of scripts/library, and LD_LIBRARY_PATH=DIR/lib
package main

// #cgo pkg-config: mte_tool
// #include <mte_tool.h>
import "C"

import (
	"fmt"
	"io"
	"os"
	"strconv"
	"unsafe"
)

// tune gives the sheet of a profile, or the sentence of what went wrong and the first fault of the profile.
func tune(limit uint64, profile []byte) ([]byte, error) {
	options := C.mte_tool_options{granules: 65536, quarantine: 65536, seed: 1, limit: C.uint64_t(limit), step: 1}
	options.size = C.size_t(unsafe.Sizeof(options))
	var text C.mte_tool_text
	defer C.mte_tool_text_free(&text)
	var input unsafe.Pointer // null for an empty profile
	if len(profile) > 0 {
		input = unsafe.Pointer(&profile[0])
	}
	end := C.mte_tool_tune(&options, input, C.size_t(len(profile)), &text, nil)
	answer := C.GoBytes(unsafe.Pointer(text.bytes), C.int(text.length))
	if end != C.MTE_TOOL_DONE {
		return nil, fmt.Errorf("%s %s", C.GoString(C.mte_tool_end_sentence(end)), answer)
	}
	return answer, nil
}

func main() {
	if len(os.Args) != 2 {
		fmt.Fprintln(os.Stderr, "usage: tune LIMIT")
		os.Exit(2)
	}
	limit, err := strconv.ParseUint(os.Args[1], 10, 64)
	if err != nil {
		fmt.Fprintln(os.Stderr, err)
		os.Exit(2)
	}
	profile, err := io.ReadAll(os.Stdin)
	if err != nil {
		fmt.Fprintln(os.Stderr, err)
		os.Exit(3)
	}
	sheet, err := tune(limit, profile)
	if err != nil {
		fmt.Fprintln(os.Stderr, err)
		os.Exit(1)
	}
	os.Stdout.Write(sheet)
}
