# mcaudit.fish: completes the arguments of mcaudit and of its tools in fish.

# Completes options of a tool where the condition holds. Each is given as `--name:value:about`; its value is empty for
# none, `value` for one that isn't known, `file`, `folder`, or the words of which it is one.
function __mcaudit_options --argument-names tool condition
    for given in $argv[3..]
        set -l parts (string split -m 2 : -- $given)
        set -l option -c $tool -n $condition -d $parts[3]
        set -l name (string replace -r '^-+' '' -- $parts[1])
        if test (string length $name) -eq 1
            set -a option -s $name
        else
            set -a option -l $name
        end
        switch $parts[2]
            case ''
                complete $option
            case value
                complete $option -x
            case file
                complete $option -r -F
            case folder
                complete $option -x -a '(__fish_complete_directories)'
            case '*'
                complete $option -x -a $parts[2]
        end
    end
end

# Completes the first argument of a program by commands that are given as `name:about`.
function __mcaudit_commands --argument-names program
    complete -c $program -f
    for given in $argv[2..]
        set -l parts (string split -m 1 : $given)
        complete -c $program -n __fish_use_subcommand -a $parts[1] -d $parts[2]
    end
end

# Completes folders where the condition holds.
function __mcaudit_folders --argument-names program condition
    complete -c $program -n $condition -f -a '(__fish_complete_directories)'
end

# Whether this is the command of the arguments, as far as they are there.
function __mcaudit_command_is --argument-names command
    contains -- $command (commandline -opc)[2]
end

# what several tools have
set -l help '--help::print help'
set -l print_version '--version::print the version'
set -l about $print_version $help
set -l routers '--routers:file:take the routers of a file too' '--ssh:value:reach a host by this command'
set -l timeout '--timeout:value:give a router up when a reading takes longer'
set -l readings \
    '--readings:value:read a router at most so many times' \
    '--pause:value:wait so long between two readings of a router' \
    '--at-once:value:read at most so many routers side by side' \
    '--facts::bring what decides beside the tables what a router forwards' \
    '--adopt::make a plain folder the first set'
set -l believed \
    '--from-daemon::take the lists of what the daemons of routers believe' \
    '--empty-lan:value:the same for this LAN alone'
set -l asking \
    '--static:value:put into the list what a host wants that can not be asked' \
    '--empty::write a list though no host answered' \
    '--empty-lan:value:the same for this LAN alone' \
    '--ask::ask where no query comes' \
    '--ask-routers::ask also on LANs with two or more listed routers' \
    '--tries:value:gather again, so many times in all' \
    '--wait:value:wait so long for a query' \
    '--listen:value:capture for so long at least' \
    '--from-daemon::take the lists of what the daemons of routers believe'

# the argument of --without is a router, and that of --ignore a range, whatever it begins with
set -l audit '__mcaudit_command_is audit; and not __fish_prev_arg_in --without --ignore'
__mcaudit_commands mcaudit \
    'audit:judge each flow of the files of a folder' \
    'check:judge each flow of a bundle by its certificate' \
    'make:make the certificate of a bundle' \
    'pack:pack the files of a folder into a bundle' \
    'replay:show the travel of one packet' \
    'wants:print whether a LAN wants what a source sends' \
    'help:print the help of the program or of a command'
complete -c mcaudit -n '__mcaudit_command_is help; and test (count (commandline -opc)) -eq 2' \
    -f -a 'audit check make pack replay wants'
__mcaudit_options mcaudit __fish_use_subcommand $print_version
__mcaudit_options mcaudit $audit \
    '--travel::print the travel of each packet that shows a fault' \
    '--faults::leave out the flows that are right and wanted' \
    '--unlisted::list all unlisted sources and groups' \
    '--strict::end with status 1 where nobody wants a flow, or no flow answers what hosts ask for' \
    '--json::write an object a line' \
    '--without:value:audit without the tables of a router' \
    '--ignore:value:ignore what hosts ask for in a range of groups'
__mcaudit_folders mcaudit $audit
__mcaudit_options mcaudit '__mcaudit_command_is pack' '--certificate::pack the certificate too'
__mcaudit_folders mcaudit '__mcaudit_command_is pack'
__mcaudit_options mcaudit '__mcaudit_command_is replay' '--order:first last:which waiting copy is handled next'

set -l tool
for tool in mcaudit-collect mcaudit-draft mcaudit-monitor mcaudit-page mcaudit-plan mcaudit-premises mcaudit-try
    __mcaudit_folders $tool true
end
for tool in mcaudit-collect mcaudit-diff mcaudit-draft mcaudit-monitor mcaudit-page mcaudit-plan mcaudit-premises \
    mcaudit-query mcaudit-reports mcaudit-try
    __mcaudit_options $tool true $about
end
__mcaudit_options mcaudit-collect true $routers $timeout $readings $believed \
    '--shell:value:run a shell on a router'
__mcaudit_options mcaudit-diff true '--json::print an object a line'
__mcaudit_options mcaudit-draft true $routers $timeout \
    '--ttl:value:the TTL of all flows' \
    '--flows:file:take the flows of this list too' \
    '--measure:value:wait so long for packets of a flow' \
    '--update::print what differs from the topology that is there'
__mcaudit_options mcaudit-monitor true $routers $timeout $readings $believed \
    '--no-collect::judge what is there' \
    '--keep:value:keep so many sets' \
    '--plugin::print one line, as a plugin of Nagios or Icinga' \
    '--warn-age:value:warn of older tables' \
    '--warn-reports:value:warn of older reports' \
    '--prometheus:file:write what the textfile collector reads' \
    '--label:value:a label of all metrics'
__mcaudit_options mcaudit-page true \
    '-o:file:write the page into a file' \
    '--audit:file:take what an audit answered' \
    '--plan:file:show the plans of a file too' \
    '--program:file:run this program for mcaudit' \
    '--without:value:audit without the tables of a router'
__mcaudit_options mcaudit-plan true \
    '-f:file:take the changes of a file, one a line' \
    '--flow:value:plan this flow alone' \
    '--new::plan flows of which no router has an entry, too' \
    '--use:value:give this router an entry in front of another' \
    '--smcroute:value:print commands for this router though it has PIM' \
    '--keep:value:keep the copy with all plans carried out' \
    '--json::print an object a line' \
    '--search:value:try so many sets of changes'
__mcaudit_options mcaudit-premises true $routers $timeout \
    '--watch:value:read the counters four times, with these pauses' \
    '--json::print an object a line' \
    '--strict::end with status 1 for all that was found or is not known'
__mcaudit_options mcaudit-query true \
    '--count:value:send so many' \
    '--pause:value:seconds between two' \
    '--tenths:value:how long answers have, in tenths of a second' \
    '--print::send nothing, and print the message'
__mcaudit_options mcaudit-reports true $routers $asking \
    '-o:file:put the list into a file' \
    '--by:value:the interface is that of a router' \
    '--capture:file:read a capture file' \
    '--text::read a recorded text on standard input' \
    '--from-bridge::take the list of what a bridge of the router believes' \
    '--all:folder:gather the lists of all LANs' \
    '--fold::follow hosts that join or leave meanwhile' \
    '--no-fold::follow no changes' \
    '--slack:value:take answers that are so late' \
    '--queries:value:gather the answers to so many queries' \
    '--network:value:the network of the LAN' \
    '--querier:value:a query of this address counts too' \
    '--interface:value:the interface of a capture file that has several'

__mcaudit_commands mcaudit-site 'init:draft, collect, gather and judge' 'lans:print each LAN with each interface on it'
__mcaudit_options mcaudit-site __fish_use_subcommand $about
__mcaudit_options mcaudit-site 'not __fish_use_subcommand' $help
__mcaudit_options mcaudit-site '__fish_seen_subcommand_from init' $routers $asking \
    '--ttl:value:the TTL of all flows' \
    '--facts::bring what decides beside the tables what a router forwards'
__mcaudit_folders mcaudit-site 'not __fish_use_subcommand'
__mcaudit_options mcaudit-try true \
    '-f:file:take the changes of a file too' \
    '--conf:value:take what smcrouted makes of a file for a router' \
    '--conf-root:folder:where the files lie that those of --conf include' \
    '--why::print what explains the faults' \
    '--json::print an object a line' \
    '--keep:value:keep the changed copy' \
    '--page:file:write a page of the changed domain'
