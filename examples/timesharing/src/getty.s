/ getty -- asks for a name on the line that is its standard input, learns from it what terminal stands there, and becomes login
/
/ The name is read key by key from a raw terminal. A name of capitals alone is that of a terminal without small letters; one
/ that ends with a return is typed where return stands for a new line.

erase	= '#
kill	= '@
eot	= 4
xtabs	= 2
lcase	= 4
echo	= 10
crmod	= 20
raw	= 40

again:
	mov	$raw|echo,flags
	clr	r0
	sys	stty; modes
	mov	$ask,r0
	jsr	pc,say
	mov	$name,r5
	clr	small
	clr	large
key:
	clr	r0
	sys	read; char; 1
	bes	leave
	tst	r0
	beq	leave
	movb	char,r0
	cmp	r0,$eot
	beq	leave
	cmp	r0,$'\r
	beq	return
	cmp	r0,$'\n
	beq	newline
	cmp	r0,$erase
	bne	1f
	cmp	r5,$name
	beq	key
	dec	r5
	br	key
1:
	cmp	r0,$kill
	bne	2f
	mov	$feed,r0
	jsr	pc,say
	mov	$name,r5
	br	key
2:
	cmp	r0,$'A
	blo	4f
	cmp	r0,$'Z
	bhi	3f
	inc	large
3:
	cmp	r0,$'a
	blo	4f
	cmp	r0,$'z
	bhi	4f
	inc	small
4:
	cmp	r5,$end
	beq	key			/ there is no room
	movb	r0,(r5)+
	br	key

return:
	mov	$crmod|echo|xtabs,flags
	mov	$feed+1,r0		/ the terminal has shown the return
	br	1f
newline:
	mov	$echo|xtabs,flags
	mov	$home,r0
1:
	jsr	pc,say
	clrb	(r5)
	cmp	r5,$name
	beq	again
	tst	small
	bne	3f
	tst	large
	beq	3f
	bis	$lcase,flags
	mov	$name,r5
2:
	movb	(r5)+,r0
	beq	3f
	cmp	r0,$'A
	blo	2b
	cmp	r0,$'Z
	bhi	2b
	bisb	$40,-1(r5)
	br	2b
3:
	clr	r0
	sys	stty; modes
	sys	exec; login; args
leave:
	mov	$1,r0
	sys	exit

/ say -- the text at r0 to the line
say:
	mov	$1,r1
	jmp	puts

ask:	<\r\nlogin: \0>
feed:	<\r\n\0>
home:	<\r\0>
login:	</bin/login\0>
	.even
args:	login; name; 0
	.data
modes:	0
	.byte	erase,kill
flags:	0
	.bss
small:	.=.+2
large:	.=.+2
char:	.=.+2
name:	.=.+16.
end	= name+15.
