# Commands of gdb that nesthv-debug adds. Where the ELF files of the guest and of its guest take the same addresses,
# $nesthv_both is 1, and gdb has the symbols of the one of whose world it shows a state. It has both while it goes on, so
# that a breakpoint by name is one in each world that has the name. $nesthv_loaded has the bits of those that gdb has: 1
# for HS and U, 2 for VS and VU.
set $nesthv_loaded = 0

define nesthv_add
if ($arg0 & 1) && !($nesthv_loaded & 1) && !$_isvoid($nesthv_hs)
eval "with confirm off -- add-symbol-file '%s'", $nesthv_hs
set $nesthv_loaded = $nesthv_loaded | 1
end
if ($arg0 & 2) && !($nesthv_loaded & 2) && !$_isvoid($nesthv_vs)
eval "with confirm off -- add-symbol-file '%s'", $nesthv_vs
set $nesthv_loaded = $nesthv_loaded | 2
end
end
document nesthv_add
Add the symbols of these worlds, by their bits.
end

define nesthv_remove
if ($arg0 & 1) && ($nesthv_loaded & 1)
eval "with confirm off -- remove-symbol-file '%s'", $nesthv_hs
end
if ($arg0 & 2) && ($nesthv_loaded & 2)
eval "with confirm off -- remove-symbol-file '%s'", $nesthv_vs
end
set $nesthv_loaded = $nesthv_loaded & ~$arg0
end
document nesthv_remove
Remove the symbols of these worlds, by their bits.
end

define nesthv_world
if !$_isvoid($nesthv_both)
if $priv > 3
nesthv_remove 1
nesthv_add 2
else
nesthv_remove 2
nesthv_add 1
end
end
end
document nesthv_world
Take the symbols of the world that is shown, where two take the same addresses.
end

define hook-stop
nesthv_world
end

define hook-continue
if !$_isvoid($nesthv_both)
nesthv_add 3
end
end

define hook-reverse-continue
if !$_isvoid($nesthv_both)
nesthv_add 3
end
end

# `monitor goto N` changes the registers, which gdb keeps.
define hookpost-monitor
maintenance flush register-cache
nesthv_world
end

define hs
if $_isvoid($nesthv_hs)
echo no ELF file stands beside the image: symbol-file FILE takes one\n
else
if $_isvoid($nesthv_both)
eval "with confirm off -- symbol-file '%s'", $nesthv_hs
else
nesthv_remove 2
nesthv_add 1
end
end
end
document hs
Take the symbols of the guest itself, which is in HS, and no others.
end

define vs
if $argc == 1
nesthv_remove 2
set $nesthv_vs = "$arg0"
end
if $_isvoid($nesthv_vs)
echo no ELF file of a guest in VS stands beside the image: vs FILE takes one\n
else
if $_isvoid($nesthv_both)
eval "with confirm off -- symbol-file '%s'", $nesthv_vs
else
nesthv_remove 1
nesthv_add 2
end
end
end
document vs
Take the symbols of the guest's guest, which is in VS, and no others.
With a file, that is the one of VS from now on.
end
