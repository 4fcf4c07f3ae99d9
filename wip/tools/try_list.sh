#!/bin/bash
# try_list.sh ROOT RUN LANE: the wrong bodies of a lane, each on its function alone
export LOOK=/work/nolook
W=/work/dev/wrong_bodies
t() { echo "== $1"; bash /work/helpers/try_edit.sh $R $RUN ${1%%/*} $W/$1.edit "${@:2}" 2>&1 | cut -c1-200 | head -4; }
R=$1; RUN=$2
case $3 in
1) for e in new_client_is_the_oldest take_dates_a_new_client_back take_forgets_a_new_client; do t lease_manager/$e lease_manager::leases::Leases::take; done
   for e in release_ends_the_newest_too releases_the_oldest_too; do t lease_manager/$e lease_manager::leases::Leases::release; done
   t lease_manager/opened_file_is_not_counted lease_manager::writers::Writers::open
   t lease_manager/state_of_an_absent_client lease_manager::leases::Leases::state;;
2) t permission_specs/reads_no_entry permission_specs::spec_text::parse_spec
   t permission_specs/stops_at_the_first_ill_formed_entry permission_specs::spec_text::entries_of
   t inode_nodes/rewrites_the_parent inode_nodes::change::rewrite_in
   t default_acl/change_clears_the_default_list_alone default_acl::change::changed
   t refusals/acl_fault_is_not_printed refusals::refusal::RefusalDisplay::fmt
   t datanode/lets_in_what_the_token_refuses datanode::datanode::DataNode::serve
   t same_entries/spent_numbers_are_alike same_entries::same_refusals::is_spent;;
3) t fs_operations/clears_whatever_is_asked fs_operations::change::changed
   t namesystem/spent_serial_is_a_stamp namesystem::namesystem::perform_roll;;
esac
