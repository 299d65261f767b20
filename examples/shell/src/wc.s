/ wc -- how many lines, words and bytes each file that is named has, or the standard input
/ A word is characters that are printed, parted by others.

	mov	(sp)+,argc
	tst	(sp)+
	clr	r0
	dec	argc
	bne	1f
	clr	name
	jsr	pc,count
	br	3f
1:
	mov	(sp)+,name
	mov	name,0f
	sys	open; 0:0; 0
	bec	2f
	mov	$noopen,r0
	mov	$1,r1
	jsr	pc,puts
	mov	name,r0
	mov	$1,r1
	jsr	pc,puts
	mov	$newline,r0
	mov	$1,r1
	jsr	pc,puts
	br	4f
2:
	jsr	pc,count
	mov	file,r0
	sys	close
4:
	dec	argc
	bne	1b
3:
	clr	r0
	sys	exit

/ count -- counts what is left of the file r0, and writes a line
count:
	mov	r0,file
	mov	$lines,r0
	mov	$7,r1
1:
	clr	(r0)+
	sob	r1,1b
2:
	mov	file,r0
	sys	read; buffer; 512.
	bes	9f
	mov	r0,r3
	beq	9f
	add	r3,chars+2
	adc	chars
	mov	$buffer,r2
3:
	movb	(r2)+,r0
	cmp	r0,$'\n
	bne	4f
	add	$1,lines+2
	adc	lines
4:
	cmp	r0,$41
	blt	5f
	cmp	r0,$176
	bgt	5f
	tst	inword
	bne	6f
	inc	inword
	add	$1,words+2
	adc	words
	br	6f
5:
	clr	inword
6:
	sob	r3,3b
	br	2b
9:
	mov	$lines,r4
	jsr	pc,number
	mov	$words,r4
	jsr	pc,number
	mov	$chars,r4
	jsr	pc,number
	mov	name,r0
	beq	1f
	mov	$blank,r0
	mov	$1,r1
	jsr	pc,puts
	mov	name,r0
	mov	$1,r1
	jsr	pc,puts
1:
	mov	$newline,r0
	mov	$1,r1
	jmp	puts

/ number -- the two words at r4, in seven places
number:
	mov	(r4)+,r0
	mov	(r4),r1
	mov	$digits+8.,r5
1:
	clr	-(sp)			/ divided by 10: the high word, and then what is left with the low one
	mov	r1,-(sp)
	mov	r0,r1
	clr	r0
	div	$10.,r0
	mov	r0,2(sp)
	mov	r1,r0
	mov	(sp)+,r1
	jsr	pc,tenth
	mov	(sp)+,r0
	add	$'0,r2
	movb	r2,-(r5)
	mov	r0,r2
	bis	r1,r2
	bne	1b
2:
	cmp	r5,$digits+1
	blos	3f
	movb	$40,-(r5)
	br	2b
3:
	mov	r5,r0
	mov	$1,r1
	jmp	puts

/ tenth -- r0, below 10, and r1 as one number, divided by 10: r1 is the quotient, r2 what is left
tenth:
	mov	r1,r2
	ashc	$-1,r0			/ half of it, so that the quotient has a sign to spare
	div	$10.,r0
	bic	$177776,r2
	asl	r1
	add	r1,r2
	asl	r0
	cmp	r2,$10.
	blt	1f
	sub	$10.,r2
	inc	r0
1:
	mov	r0,r1
	rts	pc

noopen:	<wc: cannot open \0>
newline: <\n\0>
blank:	< \0>
	.even
	.data
digits:	<        \0>
	.even
	.bss
argc:	.=.+2
name:	.=.+2
file:	.=.+2
lines:	.=.+4
words:	.=.+4
chars:	.=.+4
inword:	.=.+2
buffer:	.=.+512.
