mptmatch ; the version; for each line of a file, a pattern, a tab and a label: 1, 0 or the name of the fault; the bytes of each code
 new code,from
 write $zversion,!
 set from=$zcmdline
 open from:(readonly:recordsize=4096)
 do lines
 for code="A","C","E","L","N","P","U" do bytes(code)
 quit
lines ;
 new line
 for  use from read line quit:$zeof  use $principal write $$answer($piece(line,$char(9)),$piece(line,$char(9),2)),!
 use $principal
 quit
answer(pattern,label) ;
 new $etrap
 set $etrap="set $ecode="""" quit $piece($piece($zstatus,""-"",3),"","")"
 quit label?@pattern
bytes(code) ;
 new byte
 for byte=0:1:255 write $$answer("1"_code,$char(byte))
 write !
 quit
