package commonware_test

import (
	"os"
	"os/exec"
	"path/filepath"
	"regexp"
	"strings"
	"testing"

	. "commonware.example/commonware/v2"
)

const header = "../c/commonware.h"

func TestTheVersionIsThatOfTheHeader(t *testing.T) {
	text, err := os.ReadFile(header)
	same(t, err, nil)
	pattern := regexp.MustCompile(`(?m)^#define COMMONWARE_VERSION_(MAJOR|MINOR|PATCH) (\d+)$`)
	var parts []uint32
	for _, found := range pattern.FindAllStringSubmatch(string(text), -1) {
		parts = append(parts, uint32(numberOf(found[2])))
	}
	major, minor, patch := Version()
	same(t, []uint32{major, minor, patch}, parts)
}

// tell runs a command with more environment variables; it returns what that prints and whether it
// ends well.
func tell(settings []string, words ...string) (string, bool) {
	command := exec.Command(words[0], words[1:]...)
	command.Env = append(os.Environ(), settings...)
	prints, err := command.CombinedOutput()
	return string(prints), err == nil
}

// versioned returns the setting by which another commonware_version is linked before the library.
func versioned(t *testing.T, number string) string {
	folder := t.TempDir()
	source, object := filepath.Join(folder, "version.c"), filepath.Join(folder, "version.o")
	text := "unsigned commonware_version(void) { return " + number + "; }\n"
	same(t, os.WriteFile(source, []byte(text), 0o600), nil)
	compiler, _ := tell(nil, "go", "env", "CC")
	prints, isThere := tell(nil, strings.TrimSpace(compiler), "-c", source, "-o", object)
	same(t, isThere, true, prints)
	return "CGO_LDFLAGS=" + object + " -Wl,--allow-multiple-definition " + os.Getenv("CGO_LDFLAGS")
}

func TestAnotherMajorVersionPanics(t *testing.T) {
	for number, said := range map[string]string{"3004005": "3.4.5", "1999999": "1.999.999"} {
		prints, isWell := tell([]string{versioned(t, number)}, "go", "run", "./examples/committee")
		same(t, isWell, false)
		wanted := "panic: commonware: the linked library is version " + said +
			", and this module needs 2\n"
		same(t, strings.HasPrefix(prints, wanted), true, prints)
	}
}

func TestALaterMinorVersionRuns(t *testing.T) {
	prints, isWell := tell([]string{versioned(t, "2999999")}, "go", "run", "./examples/committee")
	same(t, isWell, true, prints)
}

func TestABuildWithoutCgoSaysWhatItNeeds(t *testing.T) {
	prints, isWell := tell([]string{"CGO_ENABLED=0"}, "go", "build", "./...")
	same(t, isWell, false)
	sentence := "commonware needs cgo: build it with CGO_ENABLED=1 and a C compiler"
	same(t, strings.Contains(prints, sentence) && !strings.Contains(prints, "undefined"), true, prints)
}

func TestAnotherHeaderDoesNotCompile(t *testing.T) {
	text, err := os.ReadFile(header)
	same(t, err, nil)
	for _, major := range []string{"1", "3"} {
		other := strings.Replace(string(text), "VERSION_MAJOR 2\n", "VERSION_MAJOR "+major+"\n", 1)
		folder := t.TempDir()
		same(t, os.WriteFile(filepath.Join(folder, "commonware.h"), []byte(other), 0o600), nil)
		prints, isWell := tell([]string{"CGO_CFLAGS=-I" + folder}, "go", "build", ".")
		same(t, isWell, false)
		sentence := "commonware.h has another major version than 2, which this module needs"
		same(t, strings.Contains(prints, sentence), true, prints)
	}
}
