# Shows the wires that the file `names` lists, in its order, over the whole dump; writes them out again as
# `again.vcd`; and says in the file `shown` whether all of them are in the window: `ok`, or what is wrong.
set file [open names]
set names [split [string trim [read $file]] \n]
close $file
gtkwave::addSignalsFromList $names
gtkwave::/Time/Zoom/Zoom_Full
# Of a short dump that leaves out the end.
for {set i 0} {$i < 4 && [gtkwave::getWindowEndTime] < [gtkwave::getMaxTime]} {incr i} {
    gtkwave::/Time/Zoom/Zoom_Out
}
gtkwave::/File/Export/Write_VCD_File_As again.vcd
set verdict ok
if {[string trim [gtkwave::getDisplayedSignals]] ne $names} {
    set verdict "it shows [gtkwave::getDisplayedSignals]"
} elseif {[gtkwave::getVisibleNumTraces] < [llength $names]} {
    set verdict "the window has room for [gtkwave::getVisibleNumTraces] wires"
} elseif {[gtkwave::getWindowStartTime] > [gtkwave::getMinTime]
        || [gtkwave::getWindowEndTime] < [gtkwave::getMaxTime]} {
    set verdict "the window goes from [gtkwave::getWindowStartTime] to [gtkwave::getWindowEndTime]"
}
set file [open shown.part w]
puts $file $verdict
close $file
file rename shown.part shown
