/ sync -- what has changed is written to the disks
	sys	sync
	clr	r0
	sys	exit
