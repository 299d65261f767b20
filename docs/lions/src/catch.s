/ Reads lines of the terminal, and writes each back. An interrupt is caught once: the routine writes a mark.
	sys	open; tty; 2
	sys	signal; 2; caught
again:
	clr	r0
	sys	read; line; 100.
	bcs	again			/ nothing was read: r0 is the number of the error
	mov	r0,0f
	clr	r0
	sys	write; line; 0:0
	br	again
caught:
	mov	r0,-(sp)
	clr	r0
	sys	write; told; 2
	mov	(sp)+,r0
	rti
tty:	</dev/tty8\0>
told:	<!\n>
line:	.=.+100.
