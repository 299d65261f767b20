/ ln -- a second name for a file: that of the second argument, or the last part of its own in this directory

	mov	(sp)+,r5
	tst	(sp)+
	cmp	r5,$2
	bge	1f
	mov	$count,r0
	jmp	fail
1:
	mov	(sp)+,r4
	mov	(sp)+,r3		/ -1 where there is none
	cmp	r5,$2
	bne	2f
	mov	r4,r0
1:
	mov	r0,r3			/ behind a slash
3:
	tstb	(r0)
	beq	2f
	cmpb	(r0)+,$57
	beq	1b
	br	3b
2:
	mov	r4,0f
	sys	stat; 0:0; status
	bes	1f
	mov	status+4,r0
	bic	$117777,r0
	cmp	r0,$40000		/ a directory
	bne	1f
	mov	$direct,r0
	jmp	fail
1:
	mov	r4,0f
	mov	r3,1f
	sys	link; 0:0; 1:0
	bec	1f
	mov	$cant,r0
	jmp	fail
1:
	clr	r0
	sys	exit

count:	<arg count\n\0>
direct:	<No directory link\n\0>
cant:	<Can't link\n\0>
	.even

	.bss
status:	.=.+36.
