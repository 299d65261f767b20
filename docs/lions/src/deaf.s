/ A child writes 5,000 bytes into a pipe. The parent reads one of them, and closes the end that is read.
/ All this comes twice, and the second child ignores signal 13.
	jsr	pc,scene
	inc	what
	jsr	pc,scene
	sys	exit
scene:
	sys	pipe
	mov	r0,r4			/ the end that is read
	mov	r1,r5			/ the end that is written
	sys	fork
	br	child
	mov	r5,r0
	sys	close
	mov	r4,r0
	sys	read; bytes; 1
	mov	r4,r0
	sys	close
	sys	wait
	rts	pc
child:
	sys	signal; 13.; what:0
	mov	r4,r0
	sys	close
	mov	r5,r0
	sys	write; bytes; 5000.
	sys	exit			/ with the number of the error as its status
bytes:	<the first of five thousand bytes>
	.bss
	.=.+4968.
