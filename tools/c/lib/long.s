/ What the machine has no instruction for: unsigned words, and longs, which are two words with the high one first. The
/ arguments of the first two are r0 and r1, and the result is r0; those of the others are two longs on the stack, and the
/ result is r0 and r1. The other registers stay.
	.globl	udiv, urem, lmul, ldiv, lrem, uldiv, ulrem

urem:
	jsr	pc,udiv
	mov	r1,r0
	rts	pc

/ r0 by r1: the quotient in r0, the remainder in r1.
udiv:
	mov	r2,-(sp)
	mov	r1,r2
	mov	r0,r1
	clr	r0
	cmp	r2,$2
	blo	2f			/ by 1 the quotient needs sixteen bits
	tst	r2
	bmi	1f
	div	r2,r0
	br	3f
1:
	cmp	r1,r2
	blo	3f
	sub	r2,r1
	inc	r0
	br	3f
2:
	mov	r1,r0
	clr	r1
3:
	mov	(sp)+,r2
	rts	pc

lmul:
	mov	r3,-(sp)
	mov	6(sp),r0
	mul	12(sp),r0		/ low by low, as signed numbers
	tst	6(sp)
	bge	1f
	add	12(sp),r0
1:
	tst	12(sp)
	bge	1f
	add	6(sp),r0
1:
	mov	4(sp),r3
	mul	12(sp),r3
	add	r3,r0
	mov	6(sp),r3
	mul	10(sp),r3
	add	r3,r0
	mov	(sp)+,r3
	rts	pc

uldiv:
	jsr	r5,longs
	jsr	pc,divide
	br	back

ulrem:
	jsr	r5,longs
	jsr	pc,divide
	br	rest

ldiv:
	jsr	r5,longs
	mov	r0,r4
	xor	r2,r4
	mov	r4,-(sp)
	jsr	pc,positive
	jsr	pc,divide
	tst	(sp)+
	bge	back
	jsr	pc,opposite
	br	back

lrem:
	jsr	r5,longs
	mov	r0,-(sp)
	jsr	pc,positive
	jsr	pc,divide
	mov	r2,r0
	mov	r3,r1
	tst	(sp)+
	bge	back
	jsr	pc,opposite
	br	back
rest:
	mov	r2,r0
	mov	r3,r1
back:
	mov	(sp)+,r4
	mov	(sp)+,r3
	mov	(sp)+,r2
	mov	(sp)+,r5
	rts	pc

/ Keeps the registers, and brings the longs to r0, r1 and r2, r3.
longs:
	mov	r2,-(sp)
	mov	r3,-(sp)
	mov	r4,-(sp)
	mov	12(sp),r0
	mov	14(sp),r1
	mov	16(sp),r2
	mov	20(sp),r3
	jmp	(r5)

positive:
	tst	r2
	bge	1f
	neg	r2
	neg	r3
	sbc	r2
1:
	tst	r0
	bge	1f
opposite:
	neg	r0
	neg	r1
	sbc	r0
1:
	rts	pc

/ r0, r1 by r2, r3 without signs: the quotient in r0, r1, the remainder in r2, r3.
divide:
	tst	r2
	bne	long
	tst	r3
	ble	long
	cmp	r3,$1
	beq	one
	mov	r1,-(sp)		/ by a small number: two divisions of the machine's
	mov	r0,r1
	clr	r0
	div	r3,r0
	mov	r0,r4
	mov	r1,r0
	mov	(sp)+,r1
	clc
	ror	r0			/ by half of it, that the quotient has fifteen bits
	ror	r1
	mov	$0,r2
	adc	r2
	div	r3,r0
	asl	r1
	add	r2,r1
	asl	r0
	cmp	r1,r3
	blo	1f
	sub	r3,r1
	inc	r0
1:
	mov	r1,r3
	clr	r2
	mov	r0,r1
	mov	r4,r0
	rts	pc
one:
	clr	r3
	rts	pc
long:
	mov	r3,-(sp)
	mov	r2,-(sp)
	clr	r2
	clr	r3
	mov	$32.,r4
1:
	asl	r1
	rol	r0
	rol	r3
	rol	r2
	cmp	r2,(sp)
	blo	3f
	bhi	2f
	cmp	r3,2(sp)
	blo	3f
2:
	sub	2(sp),r3
	sbc	r2
	sub	(sp),r2
	inc	r1
3:
	sob	r4,1b
	cmp	(sp)+,(sp)+
	rts	pc
