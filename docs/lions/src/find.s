/ Tells of each argument the number of the inode that user 1 finds under this name, or the error.
	mov	(sp)+,r5		/ how many arguments, with the name
	tst	(sp)+			/ the name
	mov	$1,r0
	sys	setuid
1:
	dec	r5
	beq	2f
	mov	(sp)+,0f
	mov	$what,r2		/ "inode" or "error"
	sys	stat; 0:0; buffer
	bes	3f
	mov	buffer+2,r0		/ the word 1 of a status is the number
	br	4f
3:
	mov	$error,r2
4:
	mov	r0,r3
	mov	r2,r0
	mov	$1,r1
	jsr	pc,puts
	clr	r2
	div	$10.,r2			/ two digits: the quotient is r2, the rest r3
	add	$'0,r2
	add	$'0,r3
	movb	r2,digits
	movb	r3,digits+1
	mov	$digits,r0
	mov	$1,r1
	jsr	pc,puts
	br	1b
2:
	clr	r0
	sys	exit
what:	<inode \0>
error:	<error \0>
digits:	<00\n\0>
	.even
	.bss
buffer:	.=.+36.
	.text
