// Network has one engine alone, and then four in one process that finalize twenty views. Half way member 1's process ends, and another
// resumes from its disk.
//
//	CGO_LDFLAGS=-L/path/to/bindings go run ./examples/network
package main

import (
	"errors"
	"fmt"
	"os"
	"simplex"
)

func main() {
	if !simplex.IsThisVersion() {
		fmt.Fprintln(os.Stderr, "network: the library has another version than the package: build the archive again")
		os.Exit(1)
	}
	for _, it := range []struct {
		members uint32
		views   int
	}{{1, 5}, {4, 20}} {
		if err := run(it.members, it.views); err != nil {
			fmt.Fprintln(os.Stderr, "network:", err)
			os.Exit(1)
		}
	}
}

// run finalizes so many views; member 1 is away from the half on until three quarters are final.
func run(members uint32, views int) error {
	network, err := start(members)
	if err != nil {
		return err
	}
	for printed, steps := 0, 0; printed < views; steps++ {
		if steps > mostSteps {
			return errors.New("no progress: too few views are final")
		}
		if err := network.step(); err != nil {
			return err
		}
		before, chain := printed, network.nodes[0].chain
		for ; printed < views && printed < len(chain); printed++ {
			it := chain[printed]
			fmt.Printf("view %2d  leader %d  block %x\n", it.view, (it.view-1)%uint64(members), it.digest())
		}
		if members > 1 && before < views/2 && printed >= views/2 {
			network.nodes[1].engine.Close()
			network.nodes[1].engine = nil
			fmt.Println("member 1 ends")
		}
		if members > 1 && network.nodes[1].engine == nil && printed >= views*3/4 {
			if err := network.nodes[1].begin(network.now, &network.sent); err != nil {
				return err
			}
			fmt.Println("member 1 resumes from its disk")
		}
	}
	disk := network.nodes[0].disk
	stored, _ := simplex.StoredFrom(*disk.stored)
	fmt.Printf("%d views are final; member 0 has stored %d entries, %d bytes\n", views, stored.Entries, len(disk.journal))
	return nil
}
