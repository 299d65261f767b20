/ mkdir -- directories of mode 777, each with its two entries: only user 0 may make them so

	mov	(sp)+,r5
	tst	(sp)+
1:
	dec	r5
	beq	4f
	mov	(sp)+,r4
	mov	r4,0f
	sys	mknod; 0:0; 40777; 0
	bes	3f
	mov	$self,r3
	jsr	pc,below
	mov	r4,0f
	sys	link; 0:0; path
	bes	3f
	mov	$parent,r3
	jsr	pc,below
	jsr	pc,above
	sys	link; dir; path
	bec	1b
3:
	mov	r4,r0
	mov	$1,r1
	jsr	pc,puts
	mov	$cant,r0
	mov	$1,r1
	jsr	pc,puts
	br	1b
4:
	clr	r0
	sys	exit

/ below -- path is the name r4 and the text r3 behind it
below:
	mov	r4,r0
	mov	$path,r1
1:
	movb	(r0)+,(r1)+
	bne	1b
	dec	r1
1:
	movb	(r3)+,(r1)+
	bne	1b
	rts	pc

/ above -- dir is the name r4 up to its last slash, or a point where it has none
above:
	mov	r4,r0
	mov	$dir,r1
	mov	r1,r2			/ the end of what is taken so far
1:
	movb	(r0),(r1)+
	beq	2f
	cmpb	(r0)+,$57
	bne	1b
	mov	r1,r2
	br	1b
2:
	cmp	r2,$dir
	bne	3f
	movb	$'.,(r2)+		/ it has none
3:
	clrb	(r2)
	rts	pc

self:	</.\0>
parent:	</..\0>
cant:	<: cannot make directory\n\0>
	.even

	.bss
path:	.=.+512.
dir:	.=.+512.
