/ echo [word ..]: its arguments as a line
	mov	(sp)+,r5		/ how many there are, with the name
	tst	(sp)+
4:
	dec	r5
	beq	3f
	mov	(sp)+,r1
	mov	r1,0f
2:
	tstb	(r1)+
	bne	2b
	movb	$40,-(r1)		/ a blank in the place of the NUL, which stands for nothing any more
	cmp	r5,$1
	beq	2f
	inc	r1
2:
	sub	0f,r1
	mov	r1,1f
	mov	$1,r0
	sys	write; 0:0; 1:0
	br	4b
3:
	mov	$1,r0
	sys	write; line; 1
	clr	r0
	sys	exit
line:	.byte	'\n
