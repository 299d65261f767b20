/ factor -- the prime factors of a number of up to 65535, a line each

	cmp	(sp)+,$2
	beq	1f
	mov	$count,r0
	jmp	fail
1:
	tst	(sp)+
	mov	(sp)+,r4
	clr	r3
1:
	movb	(r4)+,r2
	beq	2f
	sub	$'0,r2
	mul	$10.,r3
	add	r2,r3
	br	1b
2:
	mov	r3,r5			/ what is left of it
	mov	r3,r1
	jsr	pc,digits
	jsr	pc,print
	mov	$2,r4
3:
	cmp	r5,$2
	blo	5f
	clr	r0
	mov	r5,r1
	div	r4,r0
	tst	r1
	bne	4f
	mov	r0,r5
	mov	r4,r1
	jsr	pc,factor
	br	3b
4:
	inc	r4
	cmp	r0,r4
	bhis	3b
	mov	r5,r1			/ no two factors are left
	jsr	pc,factor
5:
	clr	r0
	sys	exit

/ factor -- the number r1 behind five blanks
factor:
	jsr	pc,digits
	mov	$5,r1
1:
	movb	$40,-(r2)
	sob	r1,1b
print:
	mov	r2,r0
	mov	$1,r1
	jsr	pc,puts
	rts	pc

/ digits -- those of the number r1, from r2 on
digits:
	mov	$end,r2
1:
	clr	r0
	div	$10.,r0
	add	$'0,r1
	movb	r1,-(r2)
	mov	r0,r1
	bne	1b
	rts	pc

count:	<arg count\n\0>
line:	<          >
end:	<\n\0>
	.even
