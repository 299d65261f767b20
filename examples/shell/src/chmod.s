/ chmod -- the permissions of files, by an octal number

	mov	(sp)+,r5
	tst	(sp)+
	cmp	r5,$3
	blt	3f
	mov	(sp)+,r4
	clr	r1
1:
	movb	(r4)+,r0
	beq	2f
	sub	$'0,r0
	blt	3f
	cmp	r0,$7
	bgt	3f
	asl	r1
	asl	r1
	asl	r1
	add	r0,r1
	br	1b
2:
	mov	r1,mode
	sub	$2,r5
1:
	mov	(sp)+,r4
	mov	r4,0f
	sys	chmod; 0:0; mode:0
	bec	2f
	mov	r4,r0
	mov	$1,r1
	jsr	pc,puts
	mov	$cannot,r0
	mov	$1,r1
	jsr	pc,puts
2:
	dec	r5
	bne	1b
	clr	r0
	sys	exit
3:
	mov	$usage,r0
	jmp	fail
usage:	<usage: chmod mode file ...\n\0>
cannot:	<: can't change\n\0>
