/ mknod -- makes a special file, as mknod(VIII) does: mknod NAME c MAJOR MINOR, or with b. It is assembled with lib.s.
	cmp	(sp)+,$5
	bne	9f
	tst	(sp)+			/ its own name
	mov	(sp)+,name
	cmpb	*(sp),$'b
	bne	1f
	mov	$60666,mode
1:
	tst	(sp)+
	mov	(sp)+,r1
	jsr	pc,number
	swab	r0
	mov	r0,device
	mov	(sp)+,r1
	jsr	pc,number
	bis	r0,device
	sys	mknod; name:0; mode:20666; device:0
	bes	9f
	clr	r0
	sys	exit
9:
	mov	$said,r0
	jmp	fail

/ number -- the value of the digits at r1, in decimal, to r0
number:
	clr	r3
1:
	movb	(r1)+,r2
	beq	2f
	mul	$10.,r3
	add	r2,r3
	sub	$'0,r3
	br	1b
2:
	mov	r3,r0
	rts	pc

said:	<can't make it\n\0>
	.even
