/ The child reads lines of the terminal, and writes them into a pipe. The parent reads them there, and shows them.
	sys	open; tty; 2		/ 0
	sys	pipe			/ 1, the end that is read, in r0; 2, the end that is written, in r1
	mov	r0,r4
	mov	r1,r5
	sys	fork
	br	child
	mov	r5,r0
	sys	close			/ so that the child alone can write
	clr	r5			/ the parent goes from 1 to 0
	br	1f
child:
	mov	r4,r0
	sys	close
	clr	r4			/ and the child from 0 to 2
1:
	mov	r4,r0
	sys	read; line; 100.
	mov	r0,0f
	beq	2f			/ the file has ended
	mov	r5,r0
	sys	write; line; 0:0
	br	1b
2:
	sys	exit
tty:	</dev/tty8\0>
line:	.=.+100.
