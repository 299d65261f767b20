/ cat -- each file that is named, one after the other, on the standard output
/ Without a name, and for the name -, the standard input. A file that can't be opened is passed over.

	mov	(sp)+,r5
	tst	(sp)+
	dec	r5
	bne	1f
	jsr	pc,copy			/ r0 is 0 still
	br	3f
1:
	mov	(sp)+,r1
	clr	r0
	cmpb	(r1),$'-
	bne	2f
	tstb	1(r1)
	bne	2f
	jsr	pc,copy
	br	4f
2:
	mov	r1,0f
	sys	open; 0:0; 0
	bes	4f
	jsr	pc,copy
	mov	r4,r0
	sys	close
4:
	dec	r5
	bne	1b
3:
	clr	r0
	sys	exit

/ copy -- what is left of the file r0 to the standard output; r4 is the file then
copy:
	mov	r0,r4
1:
	mov	r4,r0
	sys	read; buffer; 512.
	bes	2f
	tst	r0
	beq	2f
	mov	r0,0f
	mov	$1,r0
	sys	write; buffer; 0:0
	bec	1b
2:
	rts	pc

	.bss
buffer:	.=.+512.
