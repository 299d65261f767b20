/ od -- the words of a file in octal, eight on a line, each line with the place of its first byte
/ Lines that are as the one before are left out, and a line `*` stands for them.

	mov	(sp)+,r5
	tst	(sp)+
	dec	r5
	beq	1f
	mov	(sp),0f
	sys	open; 0:0; 0
	bec	1f
	mov	$noopen,r0
	jmp	fail
1:
	mov	r0,file
loop:
	mov	$buffer,r2
	mov	$8.,r1
1:
	clr	(r2)+
	sob	r1,1b
	jsr	pc,block
	tst	r3
	beq	done
	tst	again
	beq	2f
	cmp	r3,$16.
	bne	2f
	mov	$buffer,r0		/ is it as the line before?
	mov	$before,r2
	mov	$8.,r1
1:
	cmp	(r0)+,(r2)+
	bne	2f
	sob	r1,1b
	tst	stars
	bne	3f
	inc	stars
	mov	$star,r0
	mov	$1,r1
	jsr	pc,puts
	br	3f
2:
	clr	stars
	jsr	pc,line
3:
	add	r3,place+2
	adc	place
	inc	again
	mov	$buffer,r0
	mov	$before,r2
	mov	$8.,r1
1:
	mov	(r0)+,(r2)+
	sob	r1,1b
	br	loop
done:
	mov	$out,r4
	jsr	pc,address
	jsr	pc,flush
	clr	r0
	sys	exit

/ block -- up to 16 bytes of the file into the buffer; r3 is how many
block:
	clr	r3
more:
	mov	$buffer,0f
	add	r3,0f
	mov	$16.,1f
	sub	r3,1f
	beq	2f
	mov	file,r0
	sys	read; 0:0; 1:0
	bes	2f
	tst	r0
	beq	2f
	add	r0,r3
	br	more
2:
	rts	pc

/ line -- the place, and the words of the buffer that have a byte of the file
line:
	mov	$out,r4
	jsr	pc,address
	mov	r3,r2
	inc	r2
	asr	r2
	mov	$buffer,r5
1:
	movb	$40,(r4)+
	mov	(r5)+,r1
	clr	r0
	jsr	pc,octal
	sob	r2,1b

/ flush -- a new line, and the line from out to r4 to the standard output
flush:
	movb	$'\n,(r4)+
	mov	r4,0f
	sub	$out,0f
	mov	$1,r0
	sys	write; out; 0:0
	rts	pc

/ address -- the place in seven figures
address:
	mov	place,r0
	ash	$-2,r0			/ the bits from 18 on
	bic	$177770,r0
	add	$'0,r0
	movb	r0,(r4)+
	mov	place,r0
	bic	$177774,r0
	mov	place+2,r1
	ashc	$-15.,r0
	bic	$177770,r1
	add	$'0,r1
	movb	r1,(r4)+
	mov	place+2,r1
	br	five

/ octal -- the word r1 in six figures
octal:
	clr	r0
	ashc	$1,r0
	add	$'0,r0
	movb	r0,(r4)+
	clr	r0
	br	figures
five:
	clr	r0
	ashc	$1,r0
	clr	r0
figures:
	mov	$5,-(sp)
1:
	clr	r0
	ashc	$3,r0
	add	$'0,r0
	movb	r0,(r4)+
	dec	(sp)
	bne	1b
	tst	(sp)+
	rts	pc

noopen:	<od: cannot open\n\0>
star:	<*\n\0>
	.even
	.bss
file:	.=.+2
again:	.=.+2
stars:	.=.+2
place:	.=.+4
buffer:	.=.+16.
before:	.=.+16.
out:	.=.+80.
