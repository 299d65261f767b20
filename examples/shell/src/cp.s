/ cp -- the first file is copied onto the second, or into it where it is a directory

	cmp	(sp)+,$3
	beq	1f
	mov	$usage,r0
	jmp	fail
1:
	tst	(sp)+
	mov	(sp)+,from
	mov	(sp)+,to
	mov	from,0f
	sys	open; 0:0; 0
	bec	1f
	mov	$noold,r0
	jmp	fail
1:
	mov	r0,r4
	sys	fstat; old
	jsr	pc,target
	mov	to,0f
	sys	stat; 0:0; new
	bes	1f
	cmp	old+2,new+2		/ the number of the inode
	bne	1f
	mov	$itself,r0
	jmp	fail
1:
	mov	to,0f
	mov	old+4,1f		/ the mode
	sys	creat; 0:0; 1:0
	bec	1f
	mov	$nonew,r0
	jmp	fail
1:
	mov	r0,r5
1:
	mov	r4,r0
	sys	read; buffer; 512.
	bes	3f
	tst	r0
	beq	2f
	mov	r0,0f
	mov	r5,r0
	sys	write; buffer; 0:0
	bec	1b
	mov	$nowrite,r0
	jmp	fail
2:
	clr	r0
	sys	exit
3:
	mov	$noread,r0
	jmp	fail

/ target -- where the second name is a directory, the name is that of a file in it
target:
	mov	to,0f
	sys	stat; 0:0; new
	bes	4f
	mov	new+4,r0
	bic	$117777,r0
	cmp	r0,$40000		/ a directory
	bne	4f
	mov	to,r0
	mov	$path,r1
1:
	movb	(r0)+,(r1)+
	bne	1b
	movb	$57,-1(r1)		/ a slash
	mov	r1,r2
	mov	from,r0
2:
	mov	r2,r1			/ the name begins behind the last slash
3:
	movb	(r0),(r1)+
	beq	1f
	cmpb	(r0)+,$57
	beq	2b
	br	3b
1:
	mov	$path,to
4:
	rts	pc

usage:	<Usage: cp oldfile newfile\n\0>
noold:	<Cannot open old file.\n\0>
itself:	<Copying file to itself.\n\0>
nonew:	<Can't create new file.\n\0>
noread:	<Read error\n\0>
nowrite: <Write error.\n\0>
	.even

	.bss
from:	.=.+2
to:	.=.+2
old:	.=.+36.
new:	.=.+36.
path:	.=.+512.
buffer:	.=.+512.
