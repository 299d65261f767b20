/ lib -- what the commands share. It is assembled behind each of them.
	.text
	.even

/ puts -- the text at r0, up to its NUL, to the file r1
puts:
	mov	r0,0f
1:	tstb	(r0)+
	bne	1b
	dec	r0
	sub	0f,r0
	mov	r0,1f
	mov	r1,r0
	sys	write; 0:0; 1:0
	rts	pc

/ fail -- the text at r0 to the standard output, and the end
fail:
	mov	$1,r1
	jsr	pc,puts
	mov	$1,r0
	sys	exit
