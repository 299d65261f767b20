/ rm -- the entries of files go

	mov	(sp)+,r5
	tst	(sp)+
1:
	dec	r5
	beq	5f
	mov	(sp)+,r4
	mov	r4,0f
	sys	stat; 0:0; status
	bes	2f
	mov	status+4,r0
	bic	$117777,r0
	cmp	r0,$40000		/ a directory
	beq	3f
	mov	r4,0f
	sys	unlink; 0:0
	bec	1b
	mov	$not,r3
	br	4f
2:
	mov	$none,r3
	br	4f
3:
	mov	$direct,r3
4:
	mov	r4,r0
	mov	$1,r1
	jsr	pc,puts
	mov	r3,r0
	mov	$1,r1
	jsr	pc,puts
	br	1b
5:
	clr	r0
	sys	exit

not:	<: not removed\n\0>
none:	<: non existent\n\0>
direct:	<: directory\n\0>
	.even

	.bss
status:	.=.+36.
