/ echo -- its arguments as a line

	mov	(sp)+,r5		/ how many there are, with the name
	tst	(sp)+
1:
	dec	r5
	beq	2f
	mov	(sp)+,r0
	mov	$1,r1
	jsr	pc,puts
	cmp	r5,$1
	beq	2f			/ no blank behind the last
	mov	$blank,r0
	mov	$1,r1
	jsr	pc,puts
	br	1b
2:
	mov	$line,r0
	mov	$1,r1
	jsr	pc,puts
	clr	r0
	sys	exit

blank:	< \0>
line:	<\n\0>
	.even
