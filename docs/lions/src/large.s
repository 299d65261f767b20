/ A program whose bss no image can have.
	sys	exit
	.bss
	.=.+60000.
