// Times the Verify of Go's crypto/x509 on bags, signatures included: go FILE...
//
// A file has the anchors, the target and the others (bags.py). Prints, for each file, its name, what is said of the target, and the least
// time of a call in microseconds.
package main

import (
	"crypto/x509"
	"encoding/binary"
	"fmt"
	"os"
	"path/filepath"
	"strings"
	"time"
)

func number(octets *[]byte) uint32 {
	n := binary.LittleEndian.Uint32(*octets)
	*octets = (*octets)[4:]
	return n
}

func readList(octets *[]byte) []*x509.Certificate {
	var all []*x509.Certificate
	for count := number(octets); count > 0; count-- {
		length := number(octets)
		certificate, err := x509.ParseCertificate((*octets)[:length])
		if err != nil {
			panic(err)
		}
		all = append(all, certificate)
		*octets = (*octets)[length:]
	}
	return all
}

func main() {
	for _, file := range os.Args[1:] {
		octets, err := os.ReadFile(file)
		if err != nil {
			panic(err)
		}
		anchors, target, others := readList(&octets), readList(&octets), readList(&octets)
		options := x509.VerifyOptions{
			Roots:         x509.NewCertPool(),
			Intermediates: x509.NewCertPool(),
			CurrentTime:   time.Unix(1782864000, 0), // 2026-07-01T00:00:00Z
			KeyUsages:     []x509.ExtKeyUsage{x509.ExtKeyUsageAny},
		}
		for _, anchor := range anchors {
			options.Roots.AddCert(anchor)
		}
		for _, other := range others {
			options.Intermediates.AddCert(other)
		}
		least, said := time.Hour, "valid"
		for round := 0; round < 20; round++ {
			start := time.Now()
			_, err := target[0].Verify(options)
			if taken := time.Since(start); taken < least {
				least = taken
			}
			if err != nil {
				said = strings.SplitN(err.Error(), "(", 2)[0]
			}
		}
		fmt.Printf("%s\t%d\t%s\n", filepath.Base(file), least.Microseconds(), said)
	}
}
