/ The parent writes 5,000 bytes into a pipe at once. The child reads them, 2,048 at a time.
	sys	pipe
	mov	r0,r4			/ the end that is read
	mov	r1,r5			/ the end that is written
	sys	fork
	br	child
	mov	r5,r0
	sys	write; bytes; 5000.
	clr	r0
	sys	exit
child:
	mov	r5,r0
	sys	close
1:
	mov	r4,r0
	sys	read; bytes; 2048.
	tst	r0
	bne	1b
	sys	exit
	.bss
bytes:	.=.+5000.
