/ Two children execute one program. With a line of the terminal their parent becomes large, and never sleeps again.
	sys	fork
	br	1f			/ a child
	sys	fork
	br	1f
	sys	open; tty; 0
	sys	read; end; 100.
	sys	break; 5120.		/ 80 clicks of data
	br	.
1:
	sys	exec; name; list
	sys	exit
name:	</line\0>
tty:	</dev/tty8\0>
	.even
list:	name; 0
end:
