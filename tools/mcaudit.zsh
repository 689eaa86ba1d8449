#compdef mcaudit mcaudit-collect mcaudit-diff mcaudit-draft mcaudit-monitor mcaudit-page mcaudit-plan mcaudit-premises mcaudit-query mcaudit-reports mcaudit-site mcaudit-try
# mcaudit.zsh: completes the arguments of mcaudit and of its tools in zsh, which looks for it under the name _mcaudit.

# what several tools have
local -a help=('(- *)--help[print help]')
local -a version=('(- *)--version[print the version]')
local -a about=($version $help)
local -a site=('*:folder:_files -/')
local -a routers=(
    '--routers[take the routers of a file too]:file:_files'
    '--ssh[reach a host by this command]:command: '
)
local -a timeout=('--timeout[give a router up when a reading takes longer]:seconds: ')
local -a readings=(
    '--readings[read a router at most so many times]:number: '
    '--pause[wait so long between two readings of a router]:seconds: '
    '--at-once[read at most so many routers side by side]:number: '
    '--facts[bring what decides beside the tables what a router forwards]'
    '--adopt[make a plain folder the first set]'
)
local -a believed=(
    '--from-daemon[take the lists of what the daemons of routers believe]'
    '*--empty-lan[the same for this LAN alone]:LAN: '
)
local -a asking=(
    '--static[put into the list what a host wants that can not be asked]:group: '
    '--empty[write a list though no host answered]'
    '*--empty-lan[the same for this LAN alone]:LAN: '
    '--ask[ask where no query comes]'
    '--ask-routers[ask also on LANs with two or more listed routers]'
    '--tries[gather again, so many times in all]:number: '
    '--wait[wait so long for a query]:seconds: '
    '--listen[capture for so long at least]:seconds: '
    '--from-daemon[take the lists of what the daemons of routers believe]'
)

case $service in
mcaudit)
    local -a commands=(
        'audit:judge each flow of the files of a folder'
        'check:judge each flow of a bundle by its certificate'
        'make:make the certificate of a bundle'
        'pack:pack the files of a folder into a bundle'
        'replay:show the travel of one packet'
        'wants:print whether a LAN wants what a source sends'
    )
    case $CURRENT:$words[2] in
    2:*)
        commands+=('help:print the help of the program or of a command')
        _arguments $version '1: :{_describe command commands}' ;;
    3:help) _describe command commands ;;
    *:audit)
        _arguments ': :' \
            '--travel[print the travel of each packet that shows a fault]' \
            '--faults[leave out the flows that are right and wanted]' \
            '--unlisted[list all unlisted sources and groups]' \
            '--strict[end with status 1 where nobody wants a flow, or no flow answers what hosts ask for]' \
            '--json[write an object a line]' \
            '*--without=[audit without the tables of a router]:router: ' \
            '*--ignore=[ignore what hosts ask for in a range of groups]:group/length: ' $site ;;
    *:pack) _arguments ': :' '--certificate[pack the certificate too]' $site ;;
    *:replay) _arguments ': :' ':flow: ' ':ttl: ' '--order[which waiting copy is handled next]:order:(first last)' ;;
    esac ;;
mcaudit-collect)
    _arguments $routers $timeout $readings $believed $about $site \
        '--shell[run a shell on a router]:router: ' ;;
mcaudit-diff) _arguments $about '--json[print an object a line]' '*:audit:_files' ;;
mcaudit-draft)
    _arguments $routers $timeout $about $site \
        '--ttl[the TTL of all flows]:ttl: ' \
        '--flows[take the flows of this list too]:file:_files' \
        '--measure[wait so long for packets of a flow]:seconds: ' \
        '--update[print what differs from the topology that is there]' ;;
mcaudit-monitor)
    _arguments $routers $timeout $readings $believed $about $site \
        '--no-collect[judge what is there]' \
        '--keep[keep so many sets]:number: ' \
        '--plugin[print one line, as a plugin of Nagios or Icinga]' \
        '--warn-age[warn of older tables]:seconds: ' \
        '--warn-reports[warn of older reports]:seconds: ' \
        '--prometheus[write what the textfile collector reads]:file:_files' \
        '--label[a label of all metrics]:name=value: ' ;;
mcaudit-page)
    _arguments $about $site \
        '-o[write the page into a file]:file:_files' \
        '--audit[take what an audit answered]:file:_files' \
        '--plan[show the plans of a file too]:file:_files' \
        '--program[run this program for mcaudit]:program:_files' \
        '*--without[audit without the tables of a router]:router: ' ;;
mcaudit-plan)
    _arguments $about $site \
        '*-f[take the changes of a file, one a line]:file:_files' \
        '--flow[plan this flow alone]:number: ' \
        '--new[plan flows of which no router has an entry, too]' \
        '*--use[give this router an entry in front of another]:router: ' \
        '*--smcroute[print commands for this router though it has PIM]:router: ' \
        '--keep[keep the copy with all plans carried out]:folder: ' \
        '--json[print an object a line]' \
        '--search[try so many sets of changes]:number: ' ;;
mcaudit-premises)
    _arguments $routers $timeout $about $site \
        '--watch[read the counters four times, with these pauses]:seconds: ' \
        '--json[print an object a line]' \
        '--strict[end with status 1 for all that was found or is not known]' ;;
mcaudit-query)
    _arguments $about ':interface:_files' \
        '--count[send so many]:number: ' \
        '--pause[seconds between two]:seconds: ' \
        '--tenths[how long answers have, in tenths of a second]:tenths: ' \
        '--print[send nothing, and print the message]' ;;
mcaudit-reports)
    _arguments $routers $asking $about '*:word:_files' \
        '-o[put the list into a file]:file:_files' \
        '--by[the interface is that of a router]:address: ' \
        '--capture[read a capture file]:file:_files' \
        '--text[read a recorded text on standard input]' \
        '--from-bridge[take the list of what a bridge of the router believes]' \
        '--all[gather the lists of all LANs]:folder:_files -/' \
        '--fold[follow hosts that join or leave meanwhile]' \
        '--no-fold[follow no changes]' \
        '--slack[take answers that are so late]:seconds: ' \
        '--queries[gather the answers to so many queries]:number: ' \
        '*--network[the network of the LAN]:prefix: ' \
        '*--querier[a query of this address counts too]:address: ' \
        '--interface[the interface of a capture file that has several]:number: ' ;;
mcaudit-try)
    _arguments $about '1:folder:_files -/' '*:change: ' \
        '*-f[take the changes of a file too]:file:_files' \
        '*--conf[take what smcrouted makes of a file for a router]:router=file: ' \
        '--conf-root[where the files lie that those of --conf include]:folder:_files -/' \
        '--why[print what explains the faults]' \
        '--json[print an object a line]' \
        '--keep[keep the changed copy]:folder: ' \
        '--page[write a page of the changed domain]:file:_files' ;;
mcaudit-site)
    case $CURRENT:$words[2] in
    2:*)
        local -a commands=('init:draft, collect, gather and judge' 'lans:print each LAN with each interface on it')
        _arguments $about '1: :{_describe command commands}' ;;
    *:init)
        _arguments ': :' $routers $asking '--ttl[the TTL of all flows]:ttl: ' \
            '--facts[bring what decides beside the tables what a router forwards]' $help $site ;;
    *) _arguments ': :' $help $site ;;
    esac ;;
esac
