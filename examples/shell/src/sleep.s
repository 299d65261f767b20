/ sleep -- nothing, for so many seconds

	mov	(sp)+,r5
	tst	(sp)+
	cmp	r5,$2
	bne	2f
	mov	(sp)+,r5
	clr	r1			/ a product of an odd register is one word
1:
	movb	(r5)+,r0
	beq	3f
	sub	$'0,r0
	blt	2f
	cmp	r0,$9.
	bgt	2f
	mul	$10.,r1
	add	r0,r1
	br	1b
2:
	mov	$usage,r0
	jmp	fail
3:
	mov	r1,r0
	sys	sleep
	clr	r0
	sys	exit
usage:	<usage: sleep seconds\n\0>
