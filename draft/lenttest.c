#include "dp.h"
#include <stdio.h>
#include <stdlib.h>
#include <string.h>
int64_t lent_exchange(uint8_t *memory, uint64_t memory_len, const uint8_t *first, uint64_t first_len, const uint8_t *second, uint64_t second_len, uint32_t count);
static uint32_t seed=1; static uint32_t rnd(uint32_t n){seed=seed*1664525u+1013904223u;return (seed>>8)%n;}
static size_t tele(uint8_t*t){ /* a random telegram to station 5 */
  uint8_t d[64]; size_t n=0; int ext=1; uint8_t fc=0x40|((rnd(4))<<4)|(rnd(2)?13:12);
  uint32_t w=rnd(12);
  if(w==0){ uint8_t p[]={0x80|(rnd(8)==0?8:0),1,3,0x0b,0x80,0xb3,0}; d[0]=61;d[1]=62;memcpy(d+2,p,7);n=9; }
  else if(w==1){ d[0]=62;d[1]=62;d[2]=1;n=3; }
  else if(w==2){ d[0]=rnd(100); n=1+ (rnd(10)==0); ext=0; }
  else if(w==3){ d[0]=56+rnd(5); d[1]=62; n=2; }
  else { d[0]=rnd(4)?rnd(3):rnd(18); d[1]=rnd(10)?rnd(52):52+rnd(4); n=2+(rnd(2)?0:rnd(12)); for(size_t i=2;i<n;i++) d[i]=rnd(256);}
  uint8_t m=rnd(12)?2:3; size_t k=0; t[k++]=0x68;t[k++]=n+3;t[k++]=n+3;t[k++]=0x68; uint8_t s=0;
  uint8_t da=5|(ext?128:0), sa=m|(ext?128:0); t[k++]=da;t[k++]=sa;t[k++]=fc; s=da+sa+fc; for(size_t i=0;i<n;i++){t[k++]=d[i];s+=d[i];} t[k++]=s;t[k++]=0x16; return k; }
#define N 2048
int main(void){ static uint8_t a[N],b[N]; uint8_t cfg[1]={1}; uint8_t ch[32]={8,6,10,4,4,20}; ch[30]=240;ch[31]=240;
 uint64_t rr=0,resp=0,fill=0,same=0; long bad=0;
 for(int run=0;run<400;run++){ memset(a,0xAA,N); if(dp_start(a,N,5,0x80b3,1,1,10,4,10,cfg,1,ch,32)) return 1; memcpy(b,a,N);
  for(int step=0;step<120;step++){ uint8_t t1[80],t2[80]; size_t n1=tele(t1),n2=tele(t2); uint32_t ticks=rnd(20)==0?rnd(5):0;
   for(int q=0;q<2;q++){ uint8_t*t=q?t2:t1; size_t n=q?n2:n1; dp_gap(a,N); for(size_t i=0;i<n;i++) dp_octet(a,N,t[i],0); for(uint32_t i=0;i<ticks;i++) dp_tick(a,N);}
   if(lent_exchange(b,N,t1,n1,t2,n2,ticks)!=1){printf("lent 0\n");return 1;}
   if(memcmp(a,b,N)){ bad++; printf("differ run %d step %d\n",run,step); return 1;}
   same++;
   if(a[18]==9) rr++; if(a[18]==10) resp++;
   int k=rnd(4)?400:rnd(12); while(k--){ int64_t x=dp_send(a,N), y=dp_send(b,N); if(x!=y){printf("send\n");return 1;} if(x==256) break; }
   switch(rnd(6)){ case 0: dp_judge_parameters(a,N,1);dp_judge_parameters(b,N,1);dp_judge_configuration(a,N,1);dp_judge_configuration(b,N,1);break;
    case 1: case 2: case 3: { uint8_t r[8]={1,2,3,4,5,6,7,8}; uint32_t c=rnd(3), l=1+rnd(7); int64_t x=dp_channel_respond(a,N,c,r,l),y=dp_channel_respond(b,N,c,r,l); if(x!=y)return 1; fill+=x==0; break;}
    case 4: if(rnd(20)==0){dp_leave_master(a,N);dp_leave_master(b,N);} if(rnd(30)==0){dp_judge_parameters(a,N,0);dp_judge_parameters(b,N,0);} break;
    default: for(uint32_t c=0;c<17;c++) for(uint32_t i=0;i<3;i++) if(dp_channel_read(a,N,c,i)!=dp_channel_read(b,N,c,i)) return 1; }
   if(memcmp(a,b,N)){printf("differ after calls\n");return 1;} if(dp_events(a,N)<0){printf("damaged\n");return 1;}
  }}
 printf("same %lu rr %lu resp %lu given %lu\n",same,rr,resp,fill); return 0;}
