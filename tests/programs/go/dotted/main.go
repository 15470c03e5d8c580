// Uses packages whose paths end with a version, as gopkg.in/yaml.v3 does.
package main

import pay "programs/pay.v2"

func main() {
	bank, done := pay.Open(), make(chan bool)
	bank.PayLater(done)
	<-done
	bank.Pay()
}
