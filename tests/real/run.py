"""All cases of this folder, for tests/real/run.sh."""

import sys

import all_through_dovecot  # noqa: F401  (each adds its cases)
import as_other_services  # noqa: F401
import check_says  # noqa: F401
import debian  # noqa: F401
import disk_full_heals  # noqa: F401
import dovecot_under_the_unit  # noqa: F401
import exim_delivers  # noqa: F401
import file_changed  # noqa: F401
import five_questions  # noqa: F401
import hundred_restarts  # noqa: F401
import instead  # noqa: F401
import killed_server_lock  # noqa: F401
import killed_under_load  # noqa: F401
import lease_in_var_mail  # noqa: F401
import leases_are_told  # noqa: F401
import lockers_of_one_thread  # noqa: F401
import log_keeps_lines  # noqa: F401
import long_run  # noqa: F401
import mailbox_of_user  # noqa: F401
import malformed  # noqa: F401
import many_clients_one_mailbox  # noqa: F401
import many_mailboxes  # noqa: F401
import map_elsewhere  # noqa: F401
import marks_of_senders  # noqa: F401
import moved_users  # noqa: F401
import named_as_users  # noqa: F401
import numbers_shown  # noqa: F401
import odd_clients  # noqa: F401
import opensmtpd_delivers  # noqa: F401
import other_mailboxes  # noqa: F401
import postfix_delivers  # noqa: F401
import postfix_restarts  # noqa: F401
import power_cut  # noqa: F401
import quota_emptied  # noqa: F401
import read_only  # noqa: F401
import reader_holds  # noqa: F401
import readers_agree  # noqa: F401
import readers_delete  # noqa: F401
import service_words  # noqa: F401
import reload_goes_back  # noqa: F401
import reload_names  # noqa: F401
import resource_agent  # noqa: F401
import several_servers  # noqa: F401
import shared_folders  # noqa: F401
import start_fails  # noqa: F401
import site_mailboxes  # noqa: F401
import site_that_grows  # noqa: F401
import soak  # noqa: F401
import takeover  # noqa: F401
import ten_lines  # noqa: F401
import thirty_thousand_users  # noqa: F401
import three_hosts  # noqa: F401
import torn_writes_read  # noqa: F401
import watched  # noqa: F401
import with_postfix  # noqa: F401
from cases import run_all

sys.exit(run_all(sys.argv[1:]))
