/ date -- the day and the time, as it is in Greenwich

	sys	time			/ r0 and r1, the seconds since 1970 began
	mov	$1970.,r4
	mov	$4,r5			/ the day of the week: a Thursday
years:
	mov	$365.,r2
	bit	$3,r4
	bne	1f
	inc	r2
1:
	mov	r2,length
	mov	r2,r3
	jsr	pc,less			/ is a year left?
	bcs	days
	inc	r4
	add	r2,r5
	br	years
days:
	clr	r3			/ how many days of the year have passed
1:
	mov	$1,r2
	jsr	pc,less
	bcs	2f
	inc	r3
	br	1b
2:
	add	r3,r5
	mov	r0,high
	mov	r1,low
	mov	r4,r1
	mov	$line+28.,r2
	jsr	pc,four
	mov	r5,r1
	clr	r0
	div	$7,r0
	mul	$3,r1
	add	$week,r1
	mov	$line,r2
	jsr	pc,three
	mov	$months,r4
	mov	$names,r1
	cmp	length,$365.
	beq	3f
	inc	months+2		/ February of a year with 366 days
3:
	cmp	r3,(r4)
	blt	4f
	sub	(r4)+,r3
	add	$3,r1
	br	3b
4:
	mov	$line+4,r2
	jsr	pc,three
	inc	r3
	mov	r3,r1
	mov	$line+10.,r2
	jsr	pc,two
	cmpb	line+8.,$'0
	bne	5f
	movb	$40,line+8.
5:
	clr	r3			/ hours, minutes and seconds
6:
	mov	high,r0
	mov	low,r1
	sub	$3600.,r1
	sbc	r0
	bcs	7f
	mov	r0,high
	mov	r1,low
	inc	r3
	br	6b
7:
	mov	r3,r1
	mov	$line+13.,r2
	jsr	pc,two
	clr	r0
	mov	low,r1
	div	$60.,r0
	mov	r1,-(sp)
	mov	r0,r1
	mov	$line+16.,r2
	jsr	pc,two
	mov	(sp)+,r1
	mov	$line+19.,r2
	jsr	pc,two
	mov	$line,r0
	mov	$1,r1
	jsr	pc,puts
	clr	r0
	sys	exit

/ less -- takes r2 days from the seconds, unless they are fewer: then C is set and they stay
less:
	mov	r0,high
	mov	r1,low
	mov	r2,count
1:
	sub	$day,r1
	sbc	r0
	bcs	2f
	sub	$1,r0			/ a day has 65536 seconds and 20864
	bcs	2f
	dec	count
	bne	1b
	clc
	rts	pc
2:
	mov	high,r0
	mov	low,r1
	sec
	rts	pc

/ four, two -- the number r1 in figures, up to the byte before r2; three -- the three bytes at r1 to r2
four:
	jsr	pc,figure
	jsr	pc,figure
two:
	jsr	pc,figure
figure:
	clr	r0
	div	$10.,r0
	add	$'0,r1
	movb	r1,-(r2)
	mov	r0,r1
	rts	pc
three:
	movb	(r1)+,(r2)+
	movb	(r1)+,(r2)+
	movb	(r1)+,(r2)+
	sub	$3,r1
	rts	pc

day	= 20864.
week:	<SunMonTueWedThuFriSat>
names:	<JanFebMarAprMayJunJulAugSepOctNovDec>
	.even
	.data
months:	31.; 28.; 31.; 30.; 31.; 30.; 31.; 31.; 30.; 31.; 30.; 31.
line:	<Www Mmm dd hh:mm:ss GMT yyyy\n\0>
	.even
	.bss
high:	.=.+2
low:	.=.+2
length:	.=.+2
count: .=.+2
