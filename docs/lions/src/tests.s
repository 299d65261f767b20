/ Tells of each argument the error with which it can't be executed.
	mov	(sp)+,r5		/ how many arguments, with the name
	tst	(sp)+			/ the name
1:
	dec	r5
	beq	2f
	mov	(sp)+,r0
	mov	r0,0f
	mov	r0,list
	mov	$1,r1
	jsr	pc,puts
	sys	exec; 0:0; list
	mov	r0,r3			/ whoever comes here hasn't been given another program
	clr	r2
	div	$10.,r2			/ two digits: the quotient is r2, the rest r3
	add	$'0,r2
	add	$'0,r3
	movb	r2,digits+2
	movb	r3,digits+3
	mov	$digits,r0
	mov	$1,r1
	jsr	pc,puts
	br	1b
2:
	clr	r0
	sys	exit
digits:	<: 00\n\0>
	.even
list:	0; 0
