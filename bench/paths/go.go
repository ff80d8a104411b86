// Times the Verify of Go's crypto/x509: go_paths FILE...
//
// It is built without the check of signatures (`peers.py`). Certificates are read before. Prints, for each file, its name and the least time
// of 2,000 calls, in microseconds.
package main

import (
	"crypto/x509"
	"encoding/binary"
	"fmt"
	"os"
	"path/filepath"
	"time"
)

// The certificates of a file, each behind its length in 4 octets.
func readAll(file string) []*x509.Certificate {
	octets, err := os.ReadFile(file)
	if err != nil {
		panic(err)
	}
	var all []*x509.Certificate
	for len(octets) > 0 {
		length := binary.LittleEndian.Uint32(octets)
		certificate, err := x509.ParseCertificate(octets[4 : 4+length])
		if err != nil {
			panic(err)
		}
		all = append(all, certificate)
		octets = octets[4+length:]
	}
	return all
}

// The least time of 2,000 calls, or what Verify says against the path.
func leastTime(all []*x509.Certificate) (time.Duration, error) {
	options := x509.VerifyOptions{
		Roots:         x509.NewCertPool(),
		Intermediates: x509.NewCertPool(),
		CurrentTime:   time.Unix(1767225600, 0), // 2026-01-01T00:00:00Z
		KeyUsages:     []x509.ExtKeyUsage{x509.ExtKeyUsageAny},
	}
	options.Roots.AddCert(all[0])
	for _, certificate := range all[1 : len(all)-1] {
		options.Intermediates.AddCert(certificate)
	}
	least := time.Hour
	for round := 0; round < 2000; round++ {
		start := time.Now()
		_, err := all[len(all)-1].Verify(options)
		taken := time.Since(start)
		if err != nil {
			return 0, err
		}
		if taken < least {
			least = taken
		}
	}
	return least, nil
}

func main() {
	for _, file := range os.Args[1:] {
		least, err := leastTime(readAll(file))
		if err != nil {
			fmt.Println(filepath.Base(file), "refused:", err)
		} else {
			fmt.Printf("%s %.2f\n", filepath.Base(file), float64(least.Nanoseconds())/1000)
		}
	}
}
