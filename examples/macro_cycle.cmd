mgsat @ping.
