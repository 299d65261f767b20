/ Two processes read lines of one terminal. Each writes them back with its mark: P the parent, C the child.
	sys	open; tty; 2
	sys	fork
	br	1f			/ the child goes on here
	movb	$'P,which		/ and the parent one word further
1:
	clr	r0
	sys	read; line; 100.
	inc	r0			/ the mark goes with the line
	mov	r0,0f
	clr	r0
	sys	write; which; 0:0
	br	1b
tty:	</dev/tty8\0>
which:	<C>
line:	.=.+100.
