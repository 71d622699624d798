# Completes the command line of sudoers_tool in fish.

# Prints the command of the command line and its arguments, without options. Fails if the next word is the value of an option.
function __sudoers_tool_plain_words
    set -l words (commandline -opc)
    set -e words[1]
    set -l plain
    set -l option
    set -l no_options
    for word in $words
        if test -n "$option"
            set option
        else if test -z "$no_options"; and test "$word" = --
            set no_options yes
        else if test -z "$no_options"; and string match --quiet -- '-?*' $word
            # These options take the next word.
            contains -- "$plain[1]" adapt apply check convert edit list place plan show what who why; and contains -- $word --root --error-status; and set option $word
            contains -- "$plain[1]" diff; and contains -- $word --old-root --new-root --passwd --group-file --host --moment --interfaces; and set option $word
            contains -- "$plain[1]" check convert; and contains -- $word --for; and set option $word
            contains -- "$plain[1]" check convert diff list show what who why; and contains -- $word --dialect; and set option $word
            contains -- "$plain[1]" apply plan; and contains -- $word --also --after --before; and set option $word
            contains -- "$plain[1]" apply; and contains -- $word --undo-file --wish; and set option $word
            contains -- convert $plain; and contains -- $word -f --form -m --match; and set option $word
            contains -- list $plain; and contains -- $word -U --other-user -u --user -g --group; and set option $word
            contains -- edit $plain; and contains -- $word --also --files --undo --redo; and set option $word
            contains -- "$plain[1]" list what who why; and contains -- $word --passwd --group-file --host --moment --interfaces --policy; and set option $word
            contains -- "$plain[1]" who why; and contains -- $word -u --user -g --group; and set option $word
            contains -- "$plain[1]" list who why; and contains -- $word --same; and set option $word
        else
            set -a plain $word
            # What comes after the command that list, who or why asks about belongs to it.
            contains -- "$plain[1]:"(count $plain) list:3 who:2 why:3; and set no_options yes
        end
    end
    string join -- \n $plain
    test -z "$option"
end

# Succeeds if the command line has one of these commands, and the next word is its first argument. For check it may be a later one, and
# for diff, and for apply without a wish, the second one.
function __sudoers_tool_argument_of
    set -l plain (__sudoers_tool_plain_words); or return 1
    contains -- "$plain[1]" $argv; or return 1
    test (count $plain) -eq 1; or test $plain[1] = check; and return 0
    test $plain[1]:(count $plain) = diff:2; and return 0
    test $plain[1]:(count $plain) = apply:2; and not string match --quiet -- '--wish*' (commandline -opc)
end

# Succeeds if the next word is a user of diff.
function __sudoers_tool_user_of_diff
    set -l plain (__sudoers_tool_plain_words); or return 1
    test (count $plain) -ge 3; and test $plain[1] = diff
end

# Succeeds if the next word is a wish of plan.
function __sudoers_tool_wish_of_plan
    set -l plain (__sudoers_tool_plain_words); or return 1
    test (count $plain) -ge 2; and test $plain[1] = plan
end

# Prints the first words of wishes.
function __sudoers_tool_wishes
    echo 'has '\t'KIND ALIAS MEMBER: the alias has the member'
    echo 'has-line '\t'FILE TEXT: the file has the line'
    echo 'lacks '\t'KIND ALIAS MEMBER: the alias lacks the member'
    echo 'lacks-line '\t'FILE TEXT: the file lacks the line'
    echo 'no-user '\t'NAME: no rule and no user alias names the user'
end

# Succeeds if the next word is the command of list, or a word after it.
function __sudoers_tool_word_of_list
    set -l plain (__sudoers_tool_plain_words); or return 1
    test (count $plain) -ge 2; and test $plain[1] = list
end

# Succeeds if the next word may be an option of list, or the value of one.
function __sudoers_tool_option_of_list
    set -l plain (__sudoers_tool_plain_words)
    test (count $plain) -ge 1; and test (count $plain) -le 2; and test $plain[1] = list
end

# Succeeds if the next word is the command that who or why asks about, or a word after it.
function __sudoers_tool_word_of_question
    set -l plain (__sudoers_tool_plain_words); or return 1
    test (count $plain) -ge 1; and test $plain[1] = who; and return 0
    test (count $plain) -ge 2; and test $plain[1] = why
end

# Succeeds if the command line has one of these commands, which ask the machine, and the next word may be an option, or the value of one.
function __sudoers_tool_option_of
    set -l plain (__sudoers_tool_plain_words)
    test (count $plain) -ge 1; and contains -- $plain[1] $argv; or return 1
    test $plain[1] = what; or test (count $plain) -eq 1; or test $plain[1]:(count $plain) = why:2
end

# Succeeds if the next word may ask for help.
function __sudoers_tool_help
    set -l plain (__sudoers_tool_plain_words)
    test (count $plain) -lt 1; and return 0
    switch $plain[1]
        case list why
            test (count $plain) -lt 3
        case who
            test (count $plain) -lt 2
        case '*'
            true
    end
end

# Prints what the last pair of a filter may be: a key, or a user or a group after its key.
function __sudoers_tool_filter
    set -l text (string replace --regex -- '^(--match=|-m)' '' (commandline -ct))
    set -l before (string match --regex -- '^.*,' $text)
    switch (string replace --regex -- '^.*,' '' $text)
        case 'user=*'
            for name in (__fish_complete_users)
                echo "$before"user=$name
            end
        case 'group=*'
            for name in (__fish_complete_groups)
                echo "$before"group=$name
            end
        case '*=*'
        case '*'
            echo "$before"user=\t'Rules for this user'
            echo "$before"group=\t'Rules for this group'
            echo "$before"host=\t'Rules for this host'
    end
end

complete -c sudoers_tool -f
complete -c sudoers_tool -n __sudoers_tool_help -s h -l help -d 'Print help'
complete -c sudoers_tool -n __fish_use_subcommand -s V -l version -d 'Print the version'
complete -c sudoers_tool -n __fish_use_subcommand -a adapt -d 'Print a policy that only sudo reads, spelled so that both programs read it'
complete -c sudoers_tool -n __fish_use_subcommand -a apply -d 'Apply an edit script to a policy, and put the edited files in place, all or none'
complete -c sudoers_tool -n __fish_use_subcommand -a check -d 'Check a policy with the files that it includes'
complete -c sudoers_tool -n __fish_use_subcommand -a convert -d 'Print the rules of a policy and of the files that it includes anew, as one policy or as JSON'
complete -c sudoers_tool -n __fish_use_subcommand -a diff -d 'Print the rules that went from a policy and those that came'
complete -c sudoers_tool -n __fish_use_subcommand -a edit -d 'Apply an edit script to a policy'
complete -c sudoers_tool -n __fish_use_subcommand -a help -d 'Print help'
complete -c sudoers_tool -n __fish_use_subcommand -a list -d 'Print what a user may run on a host, or whether a command is allowed'
complete -c sudoers_tool -n __fish_use_subcommand -a place -d 'Put the files that edit --files printed in place, all or none, or back'
complete -c sudoers_tool -n __fish_use_subcommand -a plan -d 'Print the edits that make wishes true of a policy, as a script'
complete -c sudoers_tool -n __fish_use_subcommand -a show -d 'Print the lines of a policy'
complete -c sudoers_tool -n __fish_use_subcommand -a what -d 'Print what a user may run, with the places of the rules, and the Defaults that hold of him'
complete -c sudoers_tool -n __fish_use_subcommand -a who -d 'Print who may run a command, with the rule that says so'
complete -c sudoers_tool -n __fish_use_subcommand -a why -d 'Print whether a user may run a command, and the rule that says so'
complete -c sudoers_tool -n '__fish_seen_subcommand_from apply' -l undo-file -r -F -d 'New file from which place --undo puts the files back'
complete -c sudoers_tool -n '__fish_seen_subcommand_from apply' -l allow-undefined -d 'Accept edits that bring an undefined or a cyclic alias'
complete -c sudoers_tool -n '__fish_seen_subcommand_from apply' -l dry-run -d 'Print the changed lines of each file, and write no file'
complete -c sudoers_tool -n '__fish_seen_subcommand_from apply' -l wish -x -a '(__sudoers_tool_wishes)' -d 'Wish that is made true in place of a script'
complete -c sudoers_tool -n '__fish_seen_subcommand_from apply plan' -l after -x -d 'Text of the line behind which has-line puts a new one'
complete -c sudoers_tool -n '__fish_seen_subcommand_from apply plan' -l before -x -d 'Text of the line before which has-line puts a new one'
complete -c sudoers_tool -n '__fish_seen_subcommand_from apply plan' -l even-includes -d 'Let lacks-line take an include line out'
complete -c sudoers_tool -n '__fish_seen_subcommand_from apply plan' -l even-denials -d 'Let no-user take a user out to whom a line denies something'
complete -c sudoers_tool -n '__fish_seen_subcommand_from plan' -l check -d 'Set the exit status 1 if there is something to do'
complete -c sudoers_tool -n '__fish_seen_subcommand_from check' -s q -d 'Print no report; only set the exit status'
complete -c sudoers_tool -n '__fish_seen_subcommand_from check' -s s -d 'Treat undefined and cyclic aliases as errors'
complete -c sudoers_tool -n '__fish_seen_subcommand_from check' -l all -d 'Print the first error of each line of all files'
complete -c sudoers_tool -n '__fish_seen_subcommand_from check diff show' -l json -d 'Print one JSON document, also for an error'
complete -c sudoers_tool -n '__fish_seen_subcommand_from check' -l skipped -d 'List the folders and the files in included folders that are not read'
complete -c sudoers_tool -n '__fish_seen_subcommand_from check' -l installed -d 'List links, and what sudo refuses for its owner or mode'
complete -c sudoers_tool -n '__fish_seen_subcommand_from check' -l for -x -a 'sudo sudo-rs' -d 'List Defaults, other forms and includes that this program refuses'
complete -c sudoers_tool -n '__fish_seen_subcommand_from check' -l overruled -d 'List the commands that never decide'
complete -c sudoers_tool -n '__fish_seen_subcommand_from check' -l lint -d 'Warn of rules that give away more than they seem to'
complete -c sudoers_tool -n '__fish_seen_subcommand_from check convert diff show' -l dialect -x -a sudo -d 'Read the policy in this dialect'
complete -c sudoers_tool -n __sudoers_tool_option_of_list -l dialect -x -a sudo -d 'Read the policy in this dialect'
complete -c sudoers_tool -n '__sudoers_tool_option_of what who why' -l dialect -x -a sudo -d 'Read the policy in this dialect'
complete -c sudoers_tool -n '__fish_seen_subcommand_from show' -l members -d 'Print each member of alias definitions and of rules, with its place and number'
complete -c sudoers_tool -n '__fish_seen_subcommand_from convert' -s e -l expand-aliases -d 'Replace aliases by their members'
complete -c sudoers_tool -n '__fish_seen_subcommand_from convert' -s f -l form -x -a 'json sudoers' -d 'Form of the output: sudoers or json'
complete -c sudoers_tool -n '__fish_seen_subcommand_from convert' -l for -x -a sudo -d 'With -f sudoers, spell the output for this program'
complete -c sudoers_tool -n '__fish_seen_subcommand_from convert' -s m -l match -x -a '(__sudoers_tool_filter)' -d 'Print only rules for some users, groups and hosts'
complete -c sudoers_tool -n '__fish_seen_subcommand_from convert' -s p -l prune-matches -d 'With -m, drop other users and hosts from the lists'
complete -c sudoers_tool -n '__fish_seen_subcommand_from diff' -l granted -d 'Print only what may grant something'
complete -c sudoers_tool -n '__fish_seen_subcommand_from diff' -l old-root -x -a '(__fish_complete_directories)' -d 'Folder that is the root for OLD and the files that it includes'
complete -c sudoers_tool -n '__fish_seen_subcommand_from diff' -l new-root -x -a '(__fish_complete_directories)' -d 'Folder that is the root for NEW and the files that it includes'
complete -c sudoers_tool -n '__fish_seen_subcommand_from diff' -l passwd -r -F -d 'File of users, as /etc/passwd: print what each is granted otherwise'
complete -c sudoers_tool -n '__fish_seen_subcommand_from diff' -l group-file -r -F -d 'File of groups, as /etc/group'
complete -c sudoers_tool -n '__fish_seen_subcommand_from diff' -l host -x -d 'Long name of the host'
complete -c sudoers_tool -n '__fish_seen_subcommand_from diff' -l moment -x -d 'Moment of examples in UTC, as 20260101120000Z'
complete -c sudoers_tool -n '__fish_seen_subcommand_from diff' -l interfaces -x -d 'Addresses of the host, as 10.1.2.9/24'
complete -c sudoers_tool -n __sudoers_tool_user_of_diff -a '(__fish_complete_users)'
complete -c sudoers_tool -n '__fish_seen_subcommand_from edit' -l files -r -F -d 'Script for a policy and the files that it includes'
complete -c sudoers_tool -n '__fish_seen_subcommand_from apply edit plan' -l also -r -F -d 'Further file, spelled as show spells it'
complete -c sudoers_tool -n '__fish_seen_subcommand_from edit' -l undo -x -d 'Number of edits to take back after the script'
complete -c sudoers_tool -n '__fish_seen_subcommand_from edit' -l redo -x -d 'Number of these edits to make again'
complete -c sudoers_tool -n '__fish_seen_subcommand_from place' -l undo -d 'Put the files back as they were before the edits'
complete -c sudoers_tool -n '__fish_seen_subcommand_from place' -l root -x -a '(__fish_complete_directories)' -d 'Folder that is the root for the files that are put in place'
complete -c sudoers_tool -n __sudoers_tool_option_of_list -s U -l other-user -x -a '(__fish_complete_users)' -d 'User who would run the command'
complete -c sudoers_tool -n __sudoers_tool_option_of_list -s u -l user -x -a '(__fish_complete_users)' -d 'User as whom it would run'
complete -c sudoers_tool -n __sudoers_tool_option_of_list -s g -l group -x -a '(__fish_complete_groups)' -d 'Group as which it would run'
complete -c sudoers_tool -n __sudoers_tool_option_of_list -l passwd -r -F -d 'File of users, as /etc/passwd'
complete -c sudoers_tool -n __sudoers_tool_option_of_list -l group-file -r -F -d 'File of groups, as /etc/group'
complete -c sudoers_tool -n __sudoers_tool_option_of_list -l host -x -d 'Long name of the host'
complete -c sudoers_tool -n __sudoers_tool_option_of_list -l moment -x -d 'Moment in UTC, as 20260101120000Z'
complete -c sudoers_tool -n __sudoers_tool_option_of_list -l interfaces -x -d 'Addresses of the host, as 10.1.2.9/24'
complete -c sudoers_tool -n __sudoers_tool_option_of_list -l same -x -d 'Two folders that are one, as /bin=/usr/bin'
complete -c sudoers_tool -n __sudoers_tool_option_of_list -l usr-merge -d 'The folders of /usr are those of the root'
complete -c sudoers_tool -n __sudoers_tool_option_of_list -l why -d 'Print the rule that decides'
complete -c sudoers_tool -n '__fish_seen_subcommand_from adapt apply check convert edit plan show' -l root -x -a '(__fish_complete_directories)' -d 'Folder that is the root for the policy and the files that it includes'
complete -c sudoers_tool -n __sudoers_tool_option_of_list -l root -x -a '(__fish_complete_directories)' -d 'Folder that is the root for the policy and the files that it includes'
complete -c sudoers_tool -n '__fish_seen_subcommand_from adapt check convert edit show' -l error-status -x -d 'Exit status of an error'
complete -c sudoers_tool -n __sudoers_tool_option_of_list -l error-status -x -d 'Exit status of an error'
complete -c sudoers_tool -n '__fish_seen_subcommand_from adapt apply check convert diff edit place plan show' -l explain -d 'Explain an error, also where standard error is no terminal'
complete -c sudoers_tool -n __sudoers_tool_option_of_list -l explain -d 'Explain an error, also where standard error is no terminal'
complete -c sudoers_tool -n '__fish_seen_subcommand_from adapt apply check convert diff edit place plan show' -l plain -d 'Print an error alone, also on a terminal'
complete -c sudoers_tool -n __sudoers_tool_option_of_list -l plain -d 'Print an error alone, also on a terminal'
complete -c sudoers_tool -n '__sudoers_tool_argument_of adapt apply check convert diff edit list place plan show' -F
complete -c sudoers_tool -n __sudoers_tool_wish_of_plan -a '(__sudoers_tool_wishes)'
complete -c sudoers_tool -n '__sudoers_tool_option_of who why' -s u -l user -x -a '(__fish_complete_users)' -d 'User as whom it would run'
complete -c sudoers_tool -n '__sudoers_tool_option_of who why' -s g -l group -x -a '(__fish_complete_groups)' -d 'Group as which it would run'
complete -c sudoers_tool -n '__sudoers_tool_option_of who' -l denied -d 'Print also the users whom a rule denies'
complete -c sudoers_tool -n '__sudoers_tool_option_of who why' -l same -x -d 'Two folders that are one, as /bin=/usr/bin'
complete -c sudoers_tool -n '__sudoers_tool_option_of who why' -l usr-merge -d 'The folders of /usr are those of the root'
complete -c sudoers_tool -n '__sudoers_tool_option_of who why' -l no-same -d 'Leave the links /bin and /sbin aside'
complete -c sudoers_tool -n '__sudoers_tool_option_of what' -s e -l expand-aliases -d 'Replace aliases by their members'
complete -c sudoers_tool -n '__sudoers_tool_option_of what who why' -l policy -r -F -d 'Policy file; without it /etc/sudoers'
complete -c sudoers_tool -n '__sudoers_tool_option_of what who why' -l passwd -r -F -d 'File of users; without it /etc/passwd'
complete -c sudoers_tool -n '__sudoers_tool_option_of what who why' -l group-file -r -F -d 'File of groups; without it /etc/group'
complete -c sudoers_tool -n '__sudoers_tool_option_of what who why' -l host -x -d 'Long name of the host; without it that in /etc/hostname'
complete -c sudoers_tool -n '__sudoers_tool_option_of what who why' -l moment -x -d 'Moment in UTC, as 20260101120000Z; without it now'
complete -c sudoers_tool -n '__sudoers_tool_option_of what who why' -l interfaces -x -d 'Addresses of the host, as 10.1.2.9/24'
complete -c sudoers_tool -n '__sudoers_tool_option_of what who why' -l json -d 'Print one JSON document, also for an error'
complete -c sudoers_tool -n '__sudoers_tool_option_of what who why' -l root -x -a '(__fish_complete_directories)' -d 'Folder that is the root for the policy and for the files of the machine'
complete -c sudoers_tool -n '__sudoers_tool_option_of what who why' -l explain -d 'Explain an error, also where standard error is no terminal'
complete -c sudoers_tool -n '__sudoers_tool_option_of what who why' -l plain -d 'Print an error alone, also on a terminal'
complete -c sudoers_tool -n __sudoers_tool_word_of_list -F
complete -c sudoers_tool -n __sudoers_tool_word_of_question -F
complete -c sudoers_tool -n '__sudoers_tool_argument_of what why' -a '(__fish_complete_users)'
complete -c sudoers_tool -n '__sudoers_tool_argument_of help' -a 'adapt apply check convert diff edit list place plan show what who why'
