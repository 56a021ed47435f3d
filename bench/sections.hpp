// The sections: each prints its tables.
#pragma once

void rule_section();
void standard_section();
void attach_section();
void build_section();
void growth_section();
void look_up_section();
