/ Catches an interrupt in a loop without a call. SP stands one word above the end of the stack.
	sys	open; tty; 2
	sys	signal; 2; caught
	mov	$175402,sp		/ 20 clicks end at 175400
	br	.
caught:
	clr	r0
	sys	write; told; 2
	rti
tty:	</dev/tty8\0>
told:	<!\n>
