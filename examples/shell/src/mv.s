/ mv -- a file gets another name, also in another directory; one that has the new name goes

	mov	(sp)+,r5
	cmp	r5,$3
	beq	1f
	mov	$usage,r0
	jmp	fail
1:
	tst	(sp)+
	mov	(sp)+,r4		/ the old name
	mov	(sp)+,r3		/ the new one
	mov	r4,0f
	sys	stat; 0:0; status
	bec	1f
	mov	$noold,r0
	jmp	fail
1:
	mov	status+4,r0
	bic	$117777,r0
	cmp	r0,$40000
	bne	1f
	mov	$direct,r0
	jmp	fail
1:
	mov	status+2,inode
	mov	r3,0f
	sys	stat; 0:0; status
	bes	3f			/ there is no such name yet
	mov	status+4,r0
	bic	$117777,r0
	cmp	r0,$40000
	bne	2f
	mov	$path,r1		/ into a directory: the last part of the old name there
	mov	r3,r0
	jsr	pc,copy
	movb	$57,(r1)+
	mov	r4,r0
	mov	r4,r2
1:
	tstb	(r0)
	beq	1f
	cmpb	(r0)+,$57
	bne	1b
	mov	r0,r2
	br	1b
1:
	mov	r2,r0
	jsr	pc,copy
	mov	$path,r3
	mov	r3,0f
	sys	stat; 0:0; status
	bes	3f
2:
	cmp	status+2,inode
	bne	1f
	mov	$same,r0
	jmp	fail
1:
	mov	r3,0f
	sys	unlink; 0:0
3:
	mov	r4,0f
	mov	r3,1f
	sys	link; 0:0; 1:0
	bec	1f
	mov	$nonew,r0
	jmp	fail
1:
	mov	r4,0f
	sys	unlink; 0:0
	clr	r0
	sys	exit

/ copy -- the text at r0 to r1, which is at its NUL then
copy:
	movb	(r0)+,(r1)+
	bne	copy
	dec	r1
	rts	pc

usage:	<usage: mv oldname newname\n\0>
noold:	<mv: cannot find the file\n\0>
direct:	<mv: a directory keeps its name\n\0>
same:	<mv: one file\n\0>
nonew:	<mv: cannot make the new name\n\0>
	.even
	.bss
inode:	.=.+2
status:	.=.+36.
path:	.=.+512.
